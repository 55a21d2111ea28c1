//! Document 01's proved table, line by line, and the bench traps.

use super::*;

struct Bench {
    registers: Registers,
    program: Vec<u8>,
    cells: Vec<u8>,
    reply: [u8; DATAGRAM_LENGTH],
}

impl Bench {
    fn new() -> Bench {
        let mut cells = vec![0; CELLS_LENGTH];
        assert_eq!(new_cells(&mut cells), status::DONE);
        let registers = Registers::powered_up(&cells).unwrap();
        Bench { registers, program: vec![0; PROGRAM_LENGTH], cells, reply: [0; 9] }
    }

    fn datagram(&mut self, bytes: &[u8]) -> u8 {
        self.registers.datagram(&mut self.program, &mut self.cells, &mut self.reply, bytes)
    }

    /// Sends a command; its status and the value replied.
    fn send(&mut self, number: u8, kind: u8, motor: u8, value: i32) -> (u8, i32) {
        let mut bytes = [0; 9];
        let command = Command { number, kind, motor, value };
        build_command(&mut bytes, self.registers.module_address, command);
        let status = self.datagram(&bytes);
        let reply = read_reply(&self.reply).expect("the board's reply is one");
        assert_eq!(reply.status, status);
        (status, reply.value)
    }

    fn put(&mut self, address: usize, number: u8, kind: u8, motor: u8, value: i32) {
        let record = Command { number, kind, motor, value }.to_record();
        self.program[address * 7..address * 7 + 7].copy_from_slice(&record);
    }
}

fn line(sent: [u8; 9], expected: [u8; 9]) {
    let mut bench = Bench::new();
    assert_eq!(bench.datagram(&sent), expected[2]);
    assert_eq!(bench.reply, expected);
}

#[test]
fn line_1_a_number_not_on_the_sheet() {
    line([1, 5, 4, 0, 0, 0, 0xc8, 0, 0xd2], [2, 1, 3, 5, 0, 0, 0, 0, 0x0b]);
}

#[test]
fn line_2_the_checksum_of_the_manual() {
    line([1, 8, 6, 0, 0, 0, 0, 0, 0x0a], [2, 1, 1, 8, 0, 0, 0, 0, 0x0c]);
}

#[test]
fn line_3_a_default_read() {
    line([1, 6, 0x38, 0, 0, 0, 0, 0, 0x3f], [2, 1, 0x64, 6, 0, 1, 0, 0, 0x6e]);
}

#[test]
fn line_4_a_jump_in_direct_mode() {
    line([1, 0x16, 0, 0, 0, 0, 0, 0x0a, 0x21], [2, 1, 6, 0x16, 0, 0, 0, 0, 0x1f]);
}

#[test]
fn line_5_a_negative_value_set() {
    line([1, 5, 0x5d, 0, 0xff, 0xff, 0x80, 0, 0xe1], [2, 1, 0x64, 5, 0xff, 0xff, 0x80, 0, 0xea]);
}

#[test]
fn line_6_one_below_the_range() {
    assert_eq!(Bench::new().send(number::SAP, 93, 0, -32769), (4, 0));
}

fn calc(start: i32, kind: u8, operand: i32) -> (u8, i32) {
    let mut bench = Bench::new();
    assert_eq!(bench.send(number::CALC, 9, 0, start), (100, start));
    bench.send(number::CALC, kind, 0, operand)
}

#[test]
fn line_7_division_toward_zero() {
    assert_eq!(calc(-7, 3, 2), (100, -3));
    assert_eq!(calc(-7, 4, 2), (100, -1));
    assert_eq!(calc(i32::MIN, 3, -1), (100, i32::MIN));
    assert_eq!(calc(i32::MIN, 4, -1), (100, 0));
    assert_eq!(calc(5, 3, 0), (4, 0));
}

#[test]
fn line_8_wrapping() {
    assert_eq!(calc(65536, 2, 65536), (100, 0));
    assert_eq!(calc(i32::MAX, 0, 1), (100, i32::MIN));
}

#[test]
fn line_9_stop_passes() {
    let mut bench = Bench::new();
    bench.put(0, number::STOP, 0, 0, 0);
    assert_eq!(check(&bench.program), Verdict { status: 100, address: 0, depth: 0 });
}

#[test]
fn line_10_the_ninth_call() {
    let mut bench = Bench::new();
    bench.put(0, number::CSUB, 0, 0, 0);
    bench.put(1, number::STOP, 0, 0, 0);
    assert_eq!(check(&bench.program), Verdict { status: 6, address: 0, depth: 8 });
}

#[test]
fn line_11_all_zero() {
    let bench = Bench::new();
    assert_eq!(check(&bench.program), Verdict { status: 2, address: 0, depth: 0 });
}

#[test]
fn rol_of_the_least_number_is_refused() {
    assert_eq!(Bench::new().send(number::ROL, 0, 0, i32::MIN), (4, 0));
    let mut bench = Bench::new();
    assert_eq!(bench.send(number::ROL, 0, 0, 4000), (100, 4000));
    assert_eq!((bench.registers.order, bench.registers.velocity), (Order::Velocity, -4000));
}

#[test]
fn gap_reads_the_register_and_134_the_store() {
    let mut bench = Bench::new();
    bench.cells.fill(0);
    assert_eq!(bench.send(number::GAP, 56, 0, 0), (100, 65536));
    bench.put(1023, 200, 201, 202, -5);
    assert_eq!(bench.send(number::READ_PROGRAM, 0, 9, 1023), (100, -5));
    assert_eq!(bench.send(number::READ_PROGRAM, 1, 9, 1023), (100, 0xc8c9ca));
}
