//! Points of document 01 that a shallow generator would never reach.

use std::fmt;

use crate::plain::{number, Command, Order, Registers, Wait, END_ADDRESS};

macro_rules! rare_points {
    ($($name:ident: $words:literal,)*) => {
        /// A point that is hard to reach.
        #[derive(Clone, Copy)]
        pub enum Rare { $($name),* }
        const WORDS: &[&str] = &[$($words),*];
    };
}

rare_points! {
    EndAddress: "step at address 1,024",
    RefusedAtLast: "refused step at 1,023 goes to 1,024",
    EighthCall: "CSUB that fills the stack",
    NinthCall: "CSUB with eight entries: 6",
    NinthCallWrong: "CSUB with eight entries and a wrong target: 4",
    ReturnAtZero: "RSUB with no entry: 6",
    ReturnFromEight: "RSUB from a full stack",
    ReturnToEnd: "RSUB to 1,024",
    StopInCall: "STOP with entries on the stack",
    WaitHolds: "WAIT holds",
    WaitAtOnce: "WAIT TICKS passes in the step that arms it",
    WaitTicks: "WAIT TICKS passes after ticks",
    WaitCondition: "WAIT for a condition passes",
    WaitTimeout: "WAIT times out and sets ETO",
    WaitBoth: "WAIT's condition and timeout together",
    WaitForever: "WAIT without timeout holds at count 0",
    WaitAccumulator: "WAIT TICKS -1 arms from the accumulator",
    WaitAccumulatorWrong: "WAIT TICKS -1 with a negative accumulator: 4",
    WaitAccumulatorLate: "WAIT TICKS -1 armed, accumulator negative by now",
    WaitRefused: "refused WAIT drops an armed wait",
    WaitDropped: "another step drops an armed wait",
    LeastByMinusOne: "-2147483648 DIV or MOD -1",
    DivideByZero: "DIV or MOD by zero",
    MoveOverflow: "MVP REL beyond 32 bits",
    RolLeast: "ROL -2147483648",
    RotateTooFast: "ROR or ROL beyond parameter 43",
    AapWrong: "AAP with the accumulator out of range",
    AgpWrong: "AGP with the accumulator out of range",
    SetPosition: "SAP or AAP 50 orders a position",
    StepLocked: "step refused by the lock",
    StepLocks: "step that locks or unlocks",
    JumpOnFlag: "JC 8 to 11 jumps",
    NoJumpOnFlag: "JC 8 to 11 does not jump",
    JumpWrong: "JC with a wrong target: 4",
    StoreFull: "storing at write address 1,024: 4",
    StoreLast: "storing at 1,023",
    StoreLocked: "storing while locked: 5",
    StoreFullLocked: "storing at 1,024 while locked: 5",
    StoreZero: "storing command 0: 2",
    StoreRunning: "storing while running",
    DownloadAnew: "132 inside download mode",
    DownloadLocked: "132 while locked: 5",
    ReadValue: "134 type 0",
    ReadFields: "134 type 1",
    DefaultsDone: "137 done",
    DefaultsLocked: "137 while locked: 5",
    DefaultsInDownload: "137 in download mode",
    RestartDone: "255 done",
    RestartRuns: "255 with autostart",
    Autostart: "power-up with autostart",
    OneStepEnd: "130 at address 1,024",
    OneStepHolds: "130 whose WAIT holds",
    OneStepAddress: "130 whose step changes global 66 or 76",
    AddressChanged: "a direct command changes global 66 or 76",
    UnheldPlace: "a register that its type cannot hold",
}

/// How often each point was reached.
pub struct Rares([u64; WORDS.len()]);

/// What a step had before it.
pub struct Seen {
    pub command: Option<Command>,
    address: u16,
    depth: u8,
    accumulator: i32,
    x: i32,
    lock: i32,
    wait: Wait,
}

impl Seen {
    pub fn new(registers: &Registers, command: Option<Command>) -> Seen {
        Seen {
            command,
            address: registers.address,
            depth: registers.depth,
            accumulator: registers.accumulator,
            x: registers.x,
            lock: registers.lock,
            wait: registers.wait,
        }
    }
}

impl Rares {
    pub fn new() -> Rares {
        Rares([0; WORDS.len()])
    }

    pub fn mark(&mut self, rare: Rare) {
        self.0[rare as usize] += 1;
    }

    fn mark_if(&mut self, holds: bool, rare: Rare) {
        if holds {
            self.mark(rare);
        }
    }

    /// The points never reached.
    pub fn missed(&self) -> Vec<&'static str> {
        let counted = WORDS.iter().zip(&self.0);
        counted.filter(|(_, &count)| count == 0).map(|(&words, _)| words).collect()
    }

    /// Marks what a step reached.
    pub fn step(&mut self, seen: &Seen, status: u8, after: &Registers) {
        let Some(command) = seen.command else {
            return self.mark(Rare::EndAddress);
        };
        let refused = status != 100;
        self.mark_if(refused && seen.address == 1023 && after.address == 1024, Rare::RefusedAtLast);
        self.mark_if(status == 5, Rare::StepLocked);
        self.mark_if(seen.lock != after.lock, Rare::StepLocks);
        match command.number {
            number::WAIT => self.wait(seen, command, status, after),
            number::JC => self.jump(seen, command, status, after),
            number::CSUB | number::RSUB | number::STOP => {
                self.call(seen, command, status);
                let ended = command.number == number::RSUB && status == 100;
                self.mark_if(ended && after.address == END_ADDRESS, Rare::ReturnToEnd);
            }
            _ => self.shared(command, status, seen.accumulator, seen.x, after),
        }
        self.mark_if(command.number != number::WAIT && seen.wait.armed, Rare::WaitDropped);
    }

    fn call(&mut self, seen: &Seen, command: Command, status: u8) {
        match (command.number, seen.depth, status) {
            (number::CSUB, 7, 100) => self.mark(Rare::EighthCall),
            (number::CSUB, 8, 6) => self.mark(Rare::NinthCall),
            (number::CSUB, 8, 4) => self.mark(Rare::NinthCallWrong),
            (number::RSUB, 0, _) => self.mark(Rare::ReturnAtZero),
            (number::RSUB, 8, _) => self.mark(Rare::ReturnFromEight),
            (number::STOP, 1.., _) => self.mark(Rare::StopInCall),
            _ => {}
        }
    }

    fn jump(&mut self, seen: &Seen, command: Command, status: u8, after: &Registers) {
        if status == 4 {
            return self.mark(Rare::JumpWrong);
        }
        if (8..=11).contains(&command.kind) {
            let jumped = after.address != seen.address + 1;
            self.mark(if jumped { Rare::JumpOnFlag } else { Rare::NoJumpOnFlag });
        }
    }

    fn wait(&mut self, seen: &Seen, command: Command, status: u8, after: &Registers) {
        let from_accumulator = command.kind == 0 && command.value == -1;
        let negative = seen.accumulator < 0;
        if status != 100 {
            self.mark_if(seen.wait.armed, Rare::WaitRefused);
            self.mark_if(from_accumulator && negative, Rare::WaitAccumulatorWrong);
            return;
        }
        self.mark_if(from_accumulator && !seen.wait.armed, Rare::WaitAccumulator);
        self.mark_if(from_accumulator && negative && seen.wait.armed, Rare::WaitAccumulatorLate);
        if after.wait.armed {
            self.mark(Rare::WaitHolds);
            self.mark_if(after.wait.count == 0, Rare::WaitForever);
            return;
        }
        if command.kind == 0 {
            self.mark(if seen.wait.armed { Rare::WaitTicks } else { Rare::WaitAtOnce });
            return;
        }
        let run_out = seen.wait.armed && seen.wait.timed && seen.wait.count == 0;
        let condition = condition_holds(command.kind, after);
        self.mark_if(condition, Rare::WaitCondition);
        self.mark_if(run_out && !condition, Rare::WaitTimeout);
        self.mark_if(run_out && condition, Rare::WaitBoth);
    }

    /// Marks for the commands of both modes.
    fn shared(
        &mut self,
        command: Command,
        status: u8,
        accumulator: i32,
        x: i32,
        after: &Registers,
    ) {
        let right = if command.number == number::CALCX { x } else { command.value };
        match (command.number, command.kind, status) {
            (number::CALC | number::CALCX, 3 | 4, 4) => self.mark(Rare::DivideByZero),
            (number::CALC | number::CALCX, 3 | 4, 100) => {
                self.mark_if(accumulator == i32::MIN && right == -1, Rare::LeastByMinusOne);
            }
            (number::MVP, 1, 4) if command.motor == 0 => self.mark(Rare::MoveOverflow),
            (number::ROR | number::ROL, _, 4) if command.motor == 0 => {
                self.mark(Rare::RotateTooFast);
                let least = command.number == number::ROL && command.value == i32::MIN;
                self.mark_if(least, Rare::RolLeast);
            }
            (number::AAP, _, 4) if command.motor == 0 => self.mark(Rare::AapWrong),
            (number::AGP, _, 4) if command.motor == 0 => self.mark(Rare::AgpWrong),
            (number::SAP | number::AAP, 50, 100) => {
                self.mark_if(after.order == Order::Position, Rare::SetPosition);
            }
            _ => {}
        }
    }

    /// Marks what a direct command reached.
    pub fn direct(&mut self, command: Command, status: u8, before: &Registers, after: &Registers) {
        if status == 1 {
            return;
        }
        if before.download && command.number < 128 {
            return self.store(command, status, before);
        }
        self.shared(command, status, before.accumulator, before.x, after);
        let readdressed = (before.module_address, before.reply_address)
            != (after.module_address, after.reply_address);
        self.mark_if(readdressed && command.number < 128, Rare::AddressChanged);
        match (command.number, status) {
            (number::ONE_STEP, 100) => {
                self.mark_if(before.address == END_ADDRESS, Rare::OneStepEnd);
                self.mark_if(after.wait.armed, Rare::OneStepHolds);
                self.mark_if(readdressed, Rare::OneStepAddress);
            }
            (number::START_DOWNLOAD, 5) => self.mark(Rare::DownloadLocked),
            (number::START_DOWNLOAD, 100) => self.mark_if(before.download, Rare::DownloadAnew),
            (number::READ_PROGRAM, 100) if command.kind == 0 => self.mark(Rare::ReadValue),
            (number::READ_PROGRAM, 100) => self.mark(Rare::ReadFields),
            (number::DEFAULTS, 5) => self.mark(Rare::DefaultsLocked),
            (number::DEFAULTS, 100) => {
                self.mark(Rare::DefaultsDone);
                self.mark_if(before.download, Rare::DefaultsInDownload);
            }
            (number::RESTART, 100) => {
                self.mark(Rare::RestartDone);
                self.mark_if(after.running, Rare::RestartRuns);
            }
            _ => {}
        }
    }

    fn store(&mut self, command: Command, status: u8, before: &Registers) {
        let full = before.write_address == END_ADDRESS;
        match status {
            2 => self.mark_if(command.number == 0, Rare::StoreZero),
            5 => self.mark(if full { Rare::StoreFullLocked } else { Rare::StoreLocked }),
            4 => self.mark_if(full, Rare::StoreFull),
            101 => {
                self.mark_if(before.write_address == END_ADDRESS - 1, Rare::StoreLast);
                self.mark_if(before.running, Rare::StoreRunning);
            }
            _ => {}
        }
    }
}

impl Default for Rares {
    fn default() -> Rares {
        Rares::new()
    }
}

fn condition_holds(kind: u8, registers: &Registers) -> bool {
    let is_on = |number| registers.parameter(number) == Some(1);
    match kind {
        1 => is_on(55),
        2 => is_on(213),
        _ => is_on(211) || is_on(212),
    }
}

impl fmt::Display for Rares {
    fn fmt(&self, f: &mut fmt::Formatter) -> fmt::Result {
        for (words, count) in WORDS.iter().zip(&self.0) {
            writeln!(f, "{words:<52}{count:>12}")?;
        }
        Ok(())
    }
}
