//! Tests of the lines of configurations, scripts, transcripts and sessions.

use nvmesim::{
    answer_line, event_line, read_configuration, Answered, Attachment, Completion, Config, ConfigFault, Controller,
    Event, Executed, Fetched, LineError, Namespace, Subsystem, ANY_SIZE, SCRIPT_BLOCKS,
};

const TWO: &str =
    "# two hosts\r\ncontroller 1 host 0xa1\ncontroller\t2 host 340282366920938463463374607431768211455 raw\n\
                   namespace 1 blocks 64 shared\nnamespace 3 blocks 0x8 private\nattached 2 1\nstart\n# the end\n\n";

fn refused(text: &str) -> (ConfigFault, usize, usize, String) {
    let error = read_configuration(text.as_bytes(), SCRIPT_BLOCKS, 72).unwrap_err();
    (error.name, error.line, error.column, error.reason)
}

#[test]
fn a_configuration_is_read_and_written() {
    let read = read_configuration(TWO.as_bytes(), SCRIPT_BLOCKS, 72).unwrap();
    let mut raw = Controller::new(2, u128::MAX);
    raw.raw = true;
    let namespaces = [(64, 1, true), (8, 3, false)].map(|(blocks, nsid, shared)| Namespace { blocks, nsid, shared });
    let wanted = Config {
        controllers: vec![Controller::new(1, 0xa1), raw],
        namespaces: namespaces.to_vec(),
        attached: vec![Attachment { nsid: 1, cntlid: 2 }],
    };
    assert_eq!(read, wanted);
    let lines = read.lines().unwrap();
    let wanted = "controller 1 host 0xa1\ncontroller 2 host 0xffffffffffffffffffffffffffffffff raw\n\
                  namespace 1 blocks 64 shared\nnamespace 3 blocks 8 private\nattached 2 1\n";
    assert_eq!(lines, wanted);
    assert_eq!(read_configuration(lines.as_bytes(), SCRIPT_BLOCKS, 72), Ok(read.clone()));
    assert!(Subsystem::open(&read, &[0; 72 * 512]).is_ok());
}

#[test]
fn a_text_is_refused_by_name_and_place() {
    let misfit = "2:14: word 2: C, a number below 2^16, not 'a'; did you mean '0xa'?".to_owned();
    assert_eq!(refused("\n  controller a host 1\n"), (ConfigFault::BadLine, 2, 14, misfit));
    let early = "1:1: fetch needs a 'start' before it".to_owned();
    assert_eq!(refused("fetch 1 0\n"), (ConfigFault::BadLine, 1, 1, early));
    let event = "3:2: this line is an event; a configuration has none".to_owned();
    assert_eq!(refused("controller 1 host 1\nstart\n fetch 1 0\nup 1\n"), (ConfigFault::HasEvent, 3, 2, event));
    let late = "2:1: a script has only one start".to_owned();
    assert_eq!(refused("start\nstart\n"), (ConfigFault::BadLine, 2, 1, late));
    let size = "3:1: namespace 2 has 18446744073709551615 blocks; at most 65536 are allowed".to_owned();
    let text = "controller 1 host 1\n\nnamespace 2 blocks 18446744073709551615 shared\n";
    assert_eq!(refused(text), (ConfigFault::BadSize, 3, 1, size));
    let large = b"controller 1 host 1\nnamespace 2 blocks 18446744073709551615 shared\n";
    assert_eq!(read_configuration(large, ANY_SIZE, u64::MAX).map(|it| it.namespaces[0].blocks), Ok(u64::MAX));
    let above = read_configuration(large, u64::MAX - 1, u64::MAX).unwrap_err();
    assert!(above.reason.ends_with("blocks; at most 18446744073709551614 are allowed"), "{}", above.reason);
    let room = "2:1: namespace 2 ends after the 72 blocks of the medium, on which namespaces follow one another";
    let text = "controller 1 host 1\nnamespace 2 blocks 73 shared\n";
    assert_eq!(refused(text), (ConfigFault::DoesNotFit, 2, 1, room.to_owned()));
    let empty = "1:1: there is no controller; add a line 'controller 1 host 1'".to_owned();
    assert_eq!(refused("# nothing\n"), (ConfigFault::Empty, 1, 1, empty));
    assert_eq!(refused("controller 1 host 0\n").0, ConfigFault::BadId);
    let many: String = (1..18).map(|k| format!("controller {k} host 1\n")).collect();
    assert_eq!(refused(&many).0, ConfigFault::TooMany);
    let foreign = "1:11: the byte \\x0b is neither a visible character nor a space, a tab or a carriage return";
    assert_eq!(refused("controller\u{b}1 host 1\n"), (ConfigFault::BadLine, 1, 11, foreign.to_owned()));
    assert_eq!(refused(&"#".repeat(4_194_305)).0, ConfigFault::TooLong);
}

#[test]
fn events_have_their_lines() {
    let (most, last) = (u16::MAX, [0xaf; 300]);
    let long = format!("store 65535 18446744073709551615 hex:{}\n", "af".repeat(300));
    let lines = [
        (Event::Store { cntlid: 1, address: 4096, bytes: &[0, 0xaf] }, "store 1 4096 hex:00af\n"),
        (Event::Store { cntlid: most, address: u64::MAX, bytes: &last }, &long),
        (Event::Write32 { cntlid: 2, offset: 0x1000, value: u32::MAX }, "write32 2 4096 4294967295\n"),
        (Event::Fetch { cntlid: 2, qid: most }, "fetch 2 65535\n"),
        (Event::Execute { cntlid: 1, i: 65535 }, "execute 1 65535\n"),
        (Event::PowerCycle, "powercycle\n"),
    ];
    for (event, wanted) in lines {
        let mut line = vec![7; wanted.len() + 1];
        assert_eq!(event_line(&event, &mut line), Ok(wanted.len()));
        assert_eq!(&line[..wanted.len()], wanted.as_bytes());
        assert_eq!(line[wanted.len()], 7);
        let mut short = vec![7; wanted.len() - 1];
        assert_eq!(event_line(&event, &mut short), Err(LineError::NoRoom));
        assert!(short.iter().all(|byte| *byte == 7));
    }
    for event in [Event::Store { cntlid: 1, address: 0, bytes: &[] }, Event::Execute { cntlid: 1, i: 65536 }] {
        assert_eq!(event_line(&event, &mut [0; 64]), Err(LineError::NoLine));
    }
}

#[test]
fn answers_have_their_lines() {
    let (store, fetch) = (Event::Store { cntlid: 3, address: 0, bytes: &[1] }, Event::Fetch { cntlid: 2, qid: 1 });
    let (write, execute) = (Event::Write32 { cntlid: 1, offset: 0, value: 0 }, Event::Execute { cntlid: 2, i: 9 });
    let denied = Completion { sct: 1, sc: 0x8f, dw0: 0, denied_by: Some(12) };
    let done = Completion { sct: 0, sc: 0, dw0: 7, denied_by: None };
    let lines = [
        (store, Answered::Stored, "stored 3\n"),
        (store, Answered::Outside, "outside 3\n"),
        (store, Answered::NoController, "nocontroller 3\n"),
        (write, Answered::Wrote32, "wrote32 1\n"),
        (fetch, Answered::Fetched(Fetched::Took), "fetch 2 1 took\n"),
        (fetch, Answered::Fetched(Fetched::Idle), "fetch 2 1 idle\n"),
        (execute, Answered::Executed(Executed::NoSuch), "execute 2 9 none\n"),
        (execute, Answered::Executed(Executed::CqFull), "execute 2 9 full\n"),
        (execute, Answered::Executed(Executed::Posted(denied)), "execute 2 9 posted 1:8f 12\n"),
        (execute, Answered::Executed(Executed::Posted(done)), "execute 2 9 posted 0:00 0\n"),
        (Event::PowerCycle, Answered::PowerCycled, "powercycle\n"),
    ];
    for (event, answer, wanted) in lines {
        let mut line = [7; 64];
        assert_eq!(answer_line(&event, &answer, &mut line), Ok(wanted.len()));
        assert_eq!(&line[..wanted.len()], wanted.as_bytes());
        assert_eq!(answer_line(&event, &answer, &mut line[..wanted.len() - 1]), Err(LineError::NoRoom));
    }
    for (event, answer) in [(fetch, Answered::Stored), (Event::PowerCycle, Answered::NoController)] {
        assert_eq!(answer_line(&event, &answer, &mut [0; 64]), Err(LineError::NoLine));
    }
}

#[test]
fn lines_look() {
    let config = read_configuration(TWO.as_bytes(), SCRIPT_BLOCKS, 72).unwrap();
    let mut blocks = vec![0; 72 * 512];
    blocks[65 * 512] = 0xaf;
    let mut subsystem = Subsystem::open_lent(&config, &mut blocks).unwrap();
    subsystem.store(1, 4096, b"Hello").unwrap();
    let long = "?line the_text_has_a_word_that_no_line_has";
    let lines = [
        ("?attached", "attached controller 2 namespace 1"),
        ("?namespaces", "namespaces namespace 1 first 0 blocks 64 shared 1 protected 0 namespace 3 first 64 blocks 8 shared 0 protected 0"),
        ("?reservation 1", "reservation 1 type 0 holder none generation 0 persists 0 protected 0"),
        ("?window 1 0x1000 6", "window 1 4096 6 48656c6c6f"),
        ("?register 2 0x1c", "register 2 28 0x00000000"),
        ("?queues 1", "queues 1"),
        ("?fetched 2", "fetched 2"),
        ("?blocks 3 0 2", &format!("blocks 3 0 2 {}af", "0".repeat(1024))),
        ("?line write  1 1 7 1 hex:00", "line write 1 1 7 1 hex:00"),
        ("?help queues", "! line 9 word 1: the line is ?help [WORD]"),
        ("?help ?queues", "help ?queues C"),
        ("?driver 1", "! line 11 word 2: there is no such controller with a driver"),
        ("?blocks 3 0 0", "! line 12 word 3: 1 to 256 blocks are shown, all of them in the namespace"),
        ("?blocks 3 7 2", "! line 13 word 3: 1 to 256 blocks are shown, all of them in the namespace"),
        ("?queue 1", "! line 14 word 1: there is no line '?queue'; did you mean '?queues'?"),
    ];
    for (number, (line, wanted)) in lines.into_iter().enumerate() {
        assert_eq!(subsystem.look(number as u64, line).as_deref(), Ok(wanted), "{line}");
    }
    assert!(subsystem.look(1, long).unwrap().starts_with("! line 1 word 1: "));
    for line in ["", "fetch 1 0", " ?attached"] {
        assert_eq!(subsystem.look(1, line), Err(LineError::NoLine), "{line}");
    }
}
