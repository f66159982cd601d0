//! The wall display: the first line, the four tables to the byte, and the program.

mod common;

use common::*;
use reference::board::*;
use reference::generator::generate;
use reference::lent_state::State;
use reference::limits::*;
use reference::record::{self, KINDS};
use reference::tally::Tally;
use reference::wall::{tables, wall, Board};
use reference::{Call, Kernel, Outcome};

const FRESH: &str = "\
task  state    base  current  waits for  time left
   1  running     8        8  -          -

no mutexes

no buffers

no pools
";

#[track_caller]
fn assert_text(text: &str, expected: &str) {
    assert!(text == expected, "{text}");
}

#[test]
fn rows_as_text() {
    let task = |state, base, current, kind, object, left| TaskRow {
        state,
        base,
        current,
        kind,
        object,
        left,
    };
    let board = Board {
        tasks: vec![
            (1, task(TTS_RUN, 8, 8, 0, 0, 0)),
            (2, task(TTS_WAI, 5, 3, 0x10, 1, -1)),
            (3, task(TTS_RDY, 9, 9, 0, 0, 0)),
            (4, task(TTS_DMT, 10, 10, 0, 0, 0)),
            (9, task(TTS_WAI, 16, 16, 0x30, 4, 1)),
            (12, task(TTS_WAI, 5, 3, 0x20, 2, 250)),
            (16, task(TTS_WAI, 16, 1, 0x10, 8, i32::MAX)),
        ],
        mutexes: vec![
            (1, MutexRow { holder: 2, waiter: 12 }),
            (2, MutexRow { holder: 0, waiter: 0 }),
            (8, MutexRow { holder: 16, waiter: 0 }),
        ],
        buffers: vec![
            (1, BufferRow { free: 256, room: 220, next: 0, receiver: 3, sender: 0 }),
            (2, BufferRow { free: 0, room: -36, next: 32, receiver: 0, sender: 12 }),
            (4, BufferRow { free: 8, room: 0, next: 0, receiver: 16, sender: 0 }),
        ],
        pools: vec![
            (1, PoolRow { free: 3, waiter: 0 }),
            (2, PoolRow { free: 16, waiter: 0 }),
            (4, PoolRow { free: 0, waiter: 9 }),
        ],
    };
    let expected = "\
task  state    base  current  waits for  time left
   1  running     8        8  -          -
   2  waiting     5        3  mutex 1    endless
   3  ready       9        9  -          -
   4  dormant    10       10  -          -
   9  waiting    16       16  pool 4     1 ms
  12  waiting     5        3  buffer 2   250 ms
  16  waiting    16        1  mutex 8    2147483647 ms

mutex  holder   first waiter
    1  task 2   task 12
    2  -        -
    8  task 16  -

buffer  free bytes  room for maxmsz  next message  first receiver  first sender
     1         256              220             -  task 3          -
     2           0              -36            32  -               task 12
     4           8                0             -  task 16         -

pool  free blocks  first waiter
   1            3  -
   2           16  -
   4            0  task 9
";
    assert_text(&tables(&board), expected);
}

#[test]
fn no_objects() {
    let expected = "no tasks\n\nno mutexes\n\nno buffers\n\nno pools\n";
    assert_text(&tables(&Board::default()), expected);
}

#[test]
fn the_empty_script() {
    assert_text(&wall(&[]), &format!("0: end\n\n{FRESH}"));
}

#[test]
fn a_whole_script() {
    let script = script(&[
        cre_mtx(2, 0),       // 1
        cre_mtx(0, 0),       // 2
        cre_mtx(0, 0),       // 3
        del_mtx(2),          // a gap
        cre_mbf(1, 40, 32),  // 1
        cre_mbf(0, 0, 4),    // 2
        cre_mpf(0, 2, 256),  // 1
        cre_mpf(256, 1, 1),  // 2
        loc_mtx(1, -1),      // 1 holds it
        get_mpf(1, 0),       // one block is left
        get_mpf(2, 0),       // none is left
        cre_tsk(4),          // 2
        cre_tsk(5),          // 3
        cre_tsk(3),          // 4
        cre_tsk(6),          // 5
        cre_tsk(12),         // 6
        cre_tsk(7),          // 7
        del_tsk(7),          // a gap
        cre_tsk(9),          // 7 again
        chg_pri(6, 16),      // 6 stays dormant
        sta_tsk(2),          // 2 runs
        loc_mtx(1, 100),     // and waits, 1 has 4
        sta_tsk(4),          // 4 runs
        rcv_mbf(2, -1),      // and waits
        sta_tsk(7),          // 7 is ready
        snd_mbf(1, 30, 0),   // 36 of 40 bytes
        chg_pri(5, 2),       // 5 before 1
        sta_tsk(5),          // 5 runs
        snd_mbf(1, 1, 3),    // and waits
        chg_pri(3, 1),       // 3 before 1
        sta_tsk(3),          // 3 runs
        get_mpf(2, 2000000), // and waits
        Call::Tick,
    ]);
    let expected = format!(
        "\
{}: end

task  state    base  current  waits for  time left
   1  running     8        4  -          -
   2  waiting     4        4  mutex 1    99 ms
   3  waiting     1        1  pool 2     1999999 ms
   4  waiting     3        3  buffer 2   endless
   5  waiting     2        2  buffer 1   2 ms
   6  dormant    16       16  -          -
   7  ready       9        9  -          -

mutex  holder   first waiter
    1  task 1   task 2
    3  -        -

buffer  free bytes  room for maxmsz  next message  first receiver  first sender
     1           4              -32            30  -               task 5
     2           0               -8             -  task 4          -

pool  free blocks  first waiter
   1            1  -
   2            0  task 3
",
        script.len()
    );
    assert_text(&wall(&script), &expected);
}

#[test]
fn room_in_the_table() {
    let script = script(&[
        cre_mbf(0, 256, 28), // costs 32
        cre_mbf(0, 36, 32),  // costs 36
        cre_mbf(0, 35, 29),  // costs 36
        cre_mbf(0, 0, 5),    // costs 12
        snd_mbf(1, 28, 0),   // 224 are left of 256
        snd_mbf(3, 28, 0),   // 3 are left of 35
    ]);
    let expected = "\
buffer  free bytes  room for maxmsz  next message  first receiver  first sender
     1         224              192            28  -               -
     2          36                0             -  -               -
     3           3              -33            28  -               -
     4           0              -12             -  -               -";
    assert_text(wall(&script).split("\n\n").nth(3).unwrap(), expected);
}

/// bufsz and maxmsz of an empty buffer, and the beginning of its row.
const ROOMS: [(i32, i32, &str); 7] = [
    (256, 1, "\n     1         256              248  "),
    (255, 32, "\n     1         255              219  "),
    (37, 32, "\n     1          37                1  "),
    (36, 32, "\n     1          36                0  "),
    (35, 32, "\n     1          35               -1  "),
    (0, 1, "\n     1           0               -8  "),
    (0, 32, "\n     1           0              -36  "),
];

#[test]
fn room_of_one_to_three_digits_and_below_zero() {
    for (bufsz, maxmsz, row) in ROOMS {
        let text = wall(&script(&[cre_mbf(0, bufsz, maxmsz)]));
        assert!(text.contains(row), "{text}");
    }
}

#[test]
fn no_task_runs() {
    let text = wall(&script(&[Call::ExtTsk, Call::Tick, cre_tsk(1)]));
    let expected = "\
7: end

task  state    base  current  waits for  time left
   1  dormant     8        8  -          -

no mutexes

no buffers

no pools
";
    assert_text(&text, expected);
}

#[test]
fn where_a_script_stops() {
    // The whole example of 01.
    let script = [0x40, 0x32, 1, 0, 0, 0, 0, 0, 0, 0, 0x22];
    let expected = format!("10: stopped: snd_mbf needs 44 bytes and has 0\n\n{FRESH}");
    assert_text(&wall(&script), &expected);
    for (kind, name, length) in KINDS {
        for present in 0..length {
            let mut script = vec![0x40; 3];
            script.push(kind);
            script.resize(script.len() + present, 0xFF);
            let first = format!("3: stopped: {name} needs {length} bytes and has {present}");
            assert_text(&wall(&script), &format!("{first}\n\n{FRESH}"));
        }
    }
    for kind in (0..=255).filter(|&kind| record::body_length(kind).is_none()) {
        let first = format!("2: stopped: kind {}{} hex is unknown", hex(kind / 16), hex(kind % 16));
        assert_text(&wall(&[0x40, 0x40, kind, 0x01]), &format!("{first}\n\n{FRESH}"));
    }
    assert!(wall(&[0x07]).starts_with("0: stopped: kind 07 hex is unknown\n\n"));
    assert!(wall(&[0xFE]).starts_with("0: stopped: kind FE hex is unknown\n\n"));
}

fn hex(digit: u8) -> char {
    char::from(b"0123456789ABCDEF"[usize::from(digit)])
}

#[test]
fn what_ran_before_the_stop_is_shown() {
    let mut script = script(&[cre_mpf(0, 5, 1), get_mpf(1, 0)]);
    let expected = |first: &str| {
        let pools = "pool  free blocks  first waiter\n   1            4  -\n";
        format!("{first}\n\n{}", FRESH.replace("no pools\n", pools))
    };
    assert_text(&wall(&script), &expected("22: end"));
    script.extend([0x41, 0x30]);
    assert_text(&wall(&script), &expected("22: stopped: kind 41 hex is unknown"));
    script[22] = 0x33;
    assert_text(&wall(&script), &expected("22: stopped: rel_mpf needs 8 bytes and has 1"));
}

#[test]
fn the_longest_script_and_one_byte_more() {
    assert_text(&wall(&[0x40; SCRIPT]), &format!("16384: end\n\n{FRESH}"));
    let mut script = [0x40; SCRIPT];
    script[SCRIPT - 1] = 0x01;
    let expected = format!("16383: stopped: cre_tsk needs 4 bytes and has 0\n\n{FRESH}");
    assert_text(&wall(&script), &expected);
    // Nothing of a longer one is run.
    let too_long = format!("the script is longer than 16384 bytes\n\n{FRESH}");
    assert_text(&wall(&[0x04; SCRIPT + 1]), &too_long);
    assert_text(&wall(&[0xFF; 100_000]), &too_long);
}

/// Reads a table back: cells by where the headers begin and end, in the given order of fields.
fn read_table(text: &str, empty: &str, columns: &[(usize, usize)]) -> Vec<Vec<String>> {
    let mut lines = text.lines();
    let header = lines.next().unwrap();
    if header == empty {
        assert_eq!(lines.next(), None);
        return Vec::new();
    }
    let rows: Vec<Vec<String>> = lines
        .map(|line| {
            assert_eq!(line, line.trim_end());
            let cell =
                |&(from, to): &(usize, usize)| line[from..to.min(line.len())].trim().to_string();
            columns.iter().map(cell).collect()
        })
        .collect();
    assert!(!rows.is_empty());
    rows
}

/// The number at the end of a cell, 0 for `-`.
fn number(cell: &str) -> u32 {
    match cell {
        "-" => 0,
        cell => cell.rsplit(' ').next().unwrap().parse().unwrap(),
    }
}

/// Where a line is as long as its last cell.
const LAST: usize = usize::MAX;

fn read_board(text: &str) -> Board {
    let tables: Vec<&str> = text.split("\n\n").collect();
    let [tasks, mutexes, buffers, pools] = tables[..] else { panic!("{text}") };
    let object = |cells: &[String]| number(&cells[0]) as u8;
    let task_row = |cells: Vec<String>| {
        let state = match cells[1].as_str() {
            "running" => 1,
            "ready" => 2,
            "waiting" => 4,
            "dormant" => 16,
            other => panic!("{other}"),
        };
        let kind = match cells[4].split(' ').next().unwrap() {
            "-" => 0,
            "mutex" => 0x10,
            "buffer" => 0x20,
            "pool" => 0x30,
            other => panic!("{other}"),
        };
        let left = match cells[5].as_str() {
            "endless" => -1,
            "-" => 0,
            left => left.strip_suffix(" ms").unwrap().parse().unwrap(),
        };
        let [base, current] = [&cells[2], &cells[3]].map(|cell| number(cell));
        (object(&cells), TaskRow { state, base, current, kind, object: number(&cells[4]), left })
    };
    let mutex_row = |cells: Vec<String>| {
        (object(&cells), MutexRow { holder: number(&cells[1]), waiter: number(&cells[2]) })
    };
    let buffer_row = |cells: Vec<String>| {
        let [free, next, receiver, sender] = [1, 3, 4, 5].map(|i| number(&cells[i]));
        let room = cells[2].parse().unwrap();
        (object(&cells), BufferRow { free, room, next, receiver, sender })
    };
    let pool_row = |cells: Vec<String>| {
        (object(&cells), PoolRow { free: number(&cells[1]), waiter: number(&cells[2]) })
    };
    let columns = [(0, 4), (6, 13), (15, 19), (21, 28), (30, 39), (41, LAST)];
    let tasks = read_table(tasks, "no tasks", &columns);
    let mutexes = read_table(mutexes, "no mutexes", &[(0, 5), (7, 14), (16, LAST)]);
    let columns = [(0, 6), (8, 18), (20, 35), (37, 49), (51, 65), (67, LAST)];
    let buffers = read_table(buffers, "no buffers", &columns);
    let pools = read_table(pools, "no pools", &[(0, 4), (6, 17), (19, LAST)]);
    Board {
        tasks: tasks.into_iter().map(task_row).collect(),
        mutexes: mutexes.into_iter().map(mutex_row).collect(),
        buffers: buffers.into_iter().map(buffer_row).collect(),
        pools: pools.into_iter().map(pool_row).collect(),
    }
}

/// The rows that the four calls of the board write over rows that no object has.
fn written_rows(kernel: &Kernel) -> Board {
    fn changed<Row: Copy + PartialEq>(
        old: Row,
        count: usize,
        show: impl FnOnce(&mut [Row]) -> i32,
    ) -> Vec<(u8, Row)> {
        let mut rows = vec![old; count];
        assert_eq!(show(&mut rows), E_OK);
        (1..).zip(rows).filter(|(_, row)| *row != old).collect()
    }
    const OLD: u32 = u32::MAX;
    let State { words, store, outbox } = State::of(kernel);
    Board {
        tasks: changed(TaskRow { state: OLD, ..TaskRow::default() }, TASKS, |rows| {
            ref_tsk(&words, &store, &outbox, rows)
        }),
        mutexes: changed(MutexRow { holder: OLD, waiter: OLD }, MUTEXES, |rows| {
            ref_mtx(&words, &store, &outbox, rows)
        }),
        buffers: changed(BufferRow { free: OLD, ..BufferRow::default() }, BUFFERS, |rows| {
            ref_mbf(&words, &store, &outbox, rows)
        }),
        pools: changed(PoolRow { free: OLD, waiter: OLD }, POOLS, |rows| {
            ref_mpf(&words, &store, &outbox, rows)
        }),
    }
}

#[test]
fn generated_scripts_as_the_board_has_them() {
    let (mut whole, mut stopped, mut too_long) = (0, 0, 0);
    for index in 0..1_000 {
        let script = generate(12, index, 120, &mut Tally::default());
        let mut kernel = Kernel::fresh();
        let mut out = Outcome::default();
        let mut at = 0;
        if script.len() <= SCRIPT {
            while let Some((call, length)) = record::read(&script[at..]) {
                kernel.run(&call, &mut out);
                at += length;
            }
        }
        let text = wall(&script);
        let (first, board) = text.split_once("\n\n").unwrap();
        if script.len() > SCRIPT {
            too_long += 1;
            assert_eq!(first, "the script is longer than 16384 bytes");
        } else if at == script.len() {
            whole += 1;
            assert_eq!(first, format!("{at}: end"));
        } else {
            stopped += 1;
            assert!(first.starts_with(&format!("{at}: stopped: ")), "{first}");
        }
        assert!(text.ends_with('\n') && !text.ends_with("\n\n"));
        assert_eq!(read_board(board), written_rows(&kernel), "{text}");
    }
    assert!(whole > 0 && stopped > 0 && too_long > 0, "{whole} {stopped} {too_long}");
}

const WALL: &str = env!("CARGO_BIN_EXE_wall");

#[test]
fn the_program_runs_scripts() {
    for index in 0..10 {
        let script = generate(3, index, 50, &mut Tally::default());
        assert_eq!(run_binary(WALL, &[], &script), wall(&script).into_bytes());
    }
    for script in [vec![], vec![0x40; SCRIPT], vec![0x40; SCRIPT + 1], vec![0x40; 100_000]] {
        assert_eq!(run_binary(WALL, &[], &script), wall(&script).into_bytes());
    }
}

#[test]
fn the_program_runs_frames() {
    let (mut scripts, mut texts) = (Vec::new(), Vec::new());
    for index in 0..200 {
        let script = generate(4, index, 50, &mut Tally::default());
        write_frame(&mut scripts, &script);
        write_frame(&mut texts, wall(&script).as_bytes());
    }
    assert_eq!(run_binary(WALL, &["--framed"], &scripts), texts);
}
