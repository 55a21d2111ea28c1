//! The proved table and the borders of the C boundary, through safe calls.

use super::*;

/// A board as power-up leaves it on the default cells.
fn new_board() -> (Registers, Stores) {
    let stores = Stores::new();
    let mut registers = Registers::default();
    assert_eq!(registers.power_up(&stores.cells), Status::DONE);
    (registers, stores)
}

/// Sends one command to a board and reads its reply.
fn send(board: &mut (Registers, Stores), command: u8, kind: u8, motor: u8, value: i32) -> Reply {
    let (registers, stores) = board;
    let mut bytes = [0; DATAGRAM_LENGTH];
    let address = registers.0[place::MODULE_ADDRESS] as u8;
    assert_eq!(build_command(&mut bytes, address, command, kind, motor, value), Status::DONE);
    let answer =
        registers.datagram(&mut stores.program, &mut stores.cells, &mut stores.reply, &bytes);
    assert!(answer.replied);
    let reply = read_reply(&stores.reply);
    assert_eq!((reply.status, reply.command_status), (Status::DONE, answer.status));
    reply
}

fn record(command: u8, kind: u8, motor: u8, value: i32) -> [u8; RECORD_LENGTH] {
    let v = value.to_be_bytes();
    [command, kind, motor, v[0], v[1], v[2], v[3]]
}

#[test]
fn proved_table_datagrams() {
    let lines: [([u8; 9], [u8; 9]); 5] = [
        ([1, 5, 4, 0, 0, 0, 0xc8, 0, 0xd2], [2, 1, 3, 5, 0, 0, 0, 0, 0x0b]),
        ([1, 8, 6, 0, 0, 0, 0, 0, 0x0a], [2, 1, 1, 8, 0, 0, 0, 0, 0x0c]),
        ([1, 6, 0x38, 0, 0, 0, 0, 0, 0x3f], [2, 1, 0x64, 6, 0, 1, 0, 0, 0x6e]),
        ([1, 0x16, 0, 0, 0, 0, 0, 0x0a, 0x21], [2, 1, 6, 0x16, 0, 0, 0, 0, 0x1f]),
        ([1, 5, 0x5d, 0, 0xff, 0xff, 0x80, 0, 0xe1], [2, 1, 0x64, 5, 0xff, 0xff, 0x80, 0, 0xea]),
    ];
    for (sent, expected) in lines {
        let (mut registers, mut stores) = new_board();
        let answer =
            registers.datagram(&mut stores.program, &mut stores.cells, &mut stores.reply, &sent);
        assert_eq!(answer, Answer { status: Status(expected[2]), replied: true });
        assert_eq!(stores.reply, expected);
    }
}

#[test]
fn proved_table_values() {
    let mut board = new_board();
    assert_eq!(send(&mut board, 5, 93, 0, -32769).command_status, Status::WRONG_VALUE);
    for (start, kind, operand, result) in
        [(-7, 3, 2, -3), (-7, 4, 2, -1), (65536, 2, 65536, 0), (i32::MAX, 0, 1, i32::MIN)]
    {
        send(&mut board, 19, 9, 0, start);
        assert_eq!(send(&mut board, 19, kind, 0, operand).value, result);
        assert_eq!(board.0 .0[place::ACCUMULATOR], result);
    }
}

#[test]
fn proved_table_checks() {
    let mut program = [0; PROGRAM_LENGTH];
    let refused = Verdict { status: Status::UNKNOWN, address: 0, depth: 0 };
    assert_eq!(check(&program), refused);
    program[..7].copy_from_slice(&record(28, 0, 0, 0));
    assert_eq!(check(&program), Verdict { status: Status::DONE, address: 0, depth: 0 });
    program[..7].copy_from_slice(&record(23, 0, 0, 0));
    program[7..14].copy_from_slice(&record(28, 0, 0, 0));
    let refused = Verdict { status: Status::NOT_NOW, address: 0, depth: 8 };
    assert_eq!(check(&program), refused);
}

#[test]
fn wrong_lengths_change_nothing() {
    let (mut registers, mut stores) = new_board();
    let before = (registers, stores.clone());
    let command = [1, 6, 0x38, 0, 0, 0, 0, 0, 0x3f];
    let none = Answer { status: Status::LENGTH, replied: false };
    let (program, cells, reply) = (&mut stores.program, &mut stores.cells, &mut stores.reply);
    assert_eq!(registers.datagram(&mut program[1..], cells, reply, &command), none);
    assert_eq!(registers.datagram(program, &mut [], reply, &command), none);
    assert_eq!(registers.datagram(program, cells, &mut reply[1..], &command), none);
    let none = Ran { status: Status::LENGTH, steps: 0 };
    assert_eq!(registers.run(&[], cells, 5), none);
    assert_eq!(registers.run(program, &mut cells[1..], 5), none);
    let none = Verdict { status: Status::LENGTH, address: 0, depth: 0 };
    assert_eq!(check(&program[1..]), none);
    assert_eq!(build_command(&mut reply[1..], 1, 2, 3, 4, 5), Status::LENGTH);
    assert_eq!((registers, stores), before);
}

#[test]
fn not_ours_gets_no_reply() {
    let (mut registers, mut stores) = new_board();
    let before = (registers, stores.clone());
    for bytes in [&[2, 6, 0x38, 0, 0, 0, 0, 0, 0x40][..], &[1, 6, 0x38][..], &[][..]] {
        let answer =
            registers.datagram(&mut stores.program, &mut stores.cells, &mut stores.reply, bytes);
        assert_eq!(answer, Answer { status: Status::NO_REPLY, replied: false });
    }
    assert_eq!((registers, stores), before);
}

#[test]
fn registers_no_board_has_are_refused() {
    for (at, value) in [
        (place::COMPARISON, 2),
        (place::ETO, 2),
        (place::ADDRESS, 1025),
        (place::RUNNING, -1),
        (place::ORDER, 3),
        (place::DEPTH, 9),
        (place::STACK + 7, 1025),
        (place::AXIS, 0),
        (place::MODULE_ADDRESS, 0),
        (place::ANALOG_INPUTS + 2, 65536),
    ] {
        let (mut registers, mut stores) = new_board();
        registers.0[at] = value;
        let before = registers;
        assert_eq!(registers.tick(), Status::HANDED_IN, "{}", place::name(at));
        let ran = registers.run(&stores.program, &mut stores.cells, 2000);
        assert_eq!(ran, Ran { status: Status::HANDED_IN, steps: 0 });
        assert_eq!(registers, before);
        assert_eq!(registers.power_up(&stores.cells), Status::DONE);
        assert_eq!(registers, new_board().0);
    }
}

#[test]
fn download_then_run() {
    let mut board = new_board();
    assert_eq!(send(&mut board, 132, 0, 0, 0).command_status, Status::DONE);
    for (command, kind, value) in [(19, 9, 40), (19, 0, 2), (28, 0, 0)] {
        assert_eq!(send(&mut board, command, kind, 0, value).command_status, Status::STORED);
    }
    assert_eq!(send(&mut board, 133, 0, 0, 0).command_status, Status::DONE);
    assert_eq!(board.1.program[..7], record(19, 9, 0, 40));
    assert_eq!(send(&mut board, 129, 1, 0, 0).command_status, Status::DONE);
    let (registers, stores) = &mut board;
    let ran = registers.run(&stores.program, &mut stores.cells, 1000);
    assert_eq!(ran, Ran { status: Status::DONE, steps: 3 });
    assert_eq!(registers.0[place::ACCUMULATOR], 42);
    assert_eq!(registers.0[place::RUNNING], 0);
}

#[test]
fn a_timed_wait_ends_with_eto() {
    let (mut registers, mut stores) = new_board();
    stores.program[..7].copy_from_slice(&record(27, 1, 0, 2));
    registers.0[place::RUNNING] = 1;
    let mut run = |registers: &mut Registers| registers.run(&stores.program, &mut stores.cells, 1);
    assert_eq!(run(&mut registers).steps, 1);
    assert_eq!(registers.0[place::WAIT_COUNT], 2);
    assert_eq!(registers.tick(), Status::DONE);
    assert_eq!(registers.tick(), Status::DONE);
    assert_eq!(registers.0[place::ETO], 0);
    run(&mut registers);
    assert_eq!(registers.0[place::ETO], 1);
    assert_eq!(registers.0[place::ADDRESS], 1);
}

#[test]
fn every_place_has_a_name_of_its_own() {
    let mut names: Vec<String> = (0..REGISTERS).map(place::name).collect();
    names.sort();
    names.dedup();
    assert_eq!(names.len(), REGISTERS);
    assert_eq!(place::name(place::axis(240).unwrap()), "axis 240");
    assert_eq!(place::axis(49), None);
}
