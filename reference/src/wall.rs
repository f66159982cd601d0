//! The wall display: where a script ends or stops, and the status of every object as text.

use std::iter;

use crate::board::*;
use crate::kernel::Kernel;
use crate::limits::*;
use crate::number::{BufferNo, MutexNo, PoolNo, TaskNo};
use crate::record::KINDS;
use crate::script::{run_each, End};

/// Runs a script on the fresh kernel and gives what the wall display shows then.
pub fn wall(script: &[u8]) -> String {
    let (kernel, end) = run_each(script, |_| {});
    format!("{}\n\n{}", end_line(script, end), tables(&Board::of(&kernel)))
}

fn end_line(script: &[u8], end: End) -> String {
    match end {
        End::Whole => format!("{}: end", script.len()),
        End::TooLong => format!("the script is longer than {SCRIPT} bytes"),
        End::Stopped(at) => {
            let kind = script[at];
            match KINDS.iter().find(|row| row.0 == kind) {
                None => format!("{at}: stopped: kind {kind:02X} hex is unknown"),
                Some((_, name, body)) => {
                    let present = script.len() - at - 1;
                    format!("{at}: stopped: {name} needs {body} bytes and has {present}")
                }
            }
        }
    }
}

/// The rows of the objects that exist, each with its number, in the order of the numbers.
#[derive(Clone, PartialEq, Eq, Debug, Default)]
pub struct Board {
    pub tasks: Vec<(u8, TaskRow)>,
    pub mutexes: Vec<(u8, MutexRow)>,
    pub buffers: Vec<(u8, BufferRow)>,
    pub pools: Vec<(u8, PoolRow)>,
}

impl Board {
    pub fn of(kernel: &Kernel) -> Board {
        let tasks = TaskNo::all().filter_map(|n| Some((n.get(), task_row(kernel, n)?)));
        let mutexes = MutexNo::all().filter_map(|n| Some((n.get(), mutex_row(kernel, n)?)));
        let buffers = BufferNo::all().filter_map(|n| Some((n.get(), buffer_row(kernel, n)?)));
        let pools = PoolNo::all().filter_map(|n| Some((n.get(), pool_row(kernel, n)?)));
        Board {
            tasks: tasks.collect(),
            mutexes: mutexes.collect(),
            buffers: buffers.collect(),
            pools: pools.collect(),
        }
    }
}

/// The four tables, with an empty line between them.
pub fn tables(board: &Board) -> String {
    // Each ends with a newline, so that one more between them is an empty line.
    [task_table(board), mutex_table(board), buffer_table(board), pool_table(board)].join("\n")
}

fn task_table(board: &Board) -> String {
    let columns = [
        number("task"),
        word("state").width(7),
        number("base"),
        number("current"),
        word("waits for"),
        word("time left"),
    ];
    let rows = board.tasks.iter().map(|(task, row)| {
        [
            task.to_string(),
            state(row.state).to_string(),
            row.base.to_string(),
            row.current.to_string(),
            awaited(row.kind, row.object),
            time_left(row.left),
        ]
    });
    table("no tasks", columns, rows)
}

fn mutex_table(board: &Board) -> String {
    let columns = [number("mutex"), word("holder").width(7), word("first waiter")];
    let rows = board.mutexes.iter().map(|(mutex, row)| {
        [mutex.to_string(), task_or_none(row.holder), task_or_none(row.waiter)]
    });
    table("no mutexes", columns, rows)
}

fn buffer_table(board: &Board) -> String {
    let columns = [
        number("buffer"),
        number("free bytes"),
        number("room for maxmsz"),
        number("next message"),
        word("first receiver"),
        word("first sender"),
    ];
    let rows = board.buffers.iter().map(|(buffer, row)| {
        [
            buffer.to_string(),
            row.free.to_string(),
            row.room.to_string(),
            if row.next == 0 { none() } else { row.next.to_string() },
            task_or_none(row.receiver),
            task_or_none(row.sender),
        ]
    });
    table("no buffers", columns, rows)
}

fn pool_table(board: &Board) -> String {
    let columns = [number("pool"), number("free blocks"), word("first waiter")];
    let rows = board
        .pools
        .iter()
        .map(|(pool, row)| [pool.to_string(), row.free.to_string(), task_or_none(row.waiter)]);
    table("no pools", columns, rows)
}

// What stands in a cell.

fn none() -> String {
    "-".to_string()
}

fn state(state: u32) -> &'static str {
    match state {
        TTS_RUN => "running",
        TTS_RDY => "ready",
        TTS_WAI => "waiting",
        TTS_DMT => "dormant",
        other => unreachable!("no task's state is {other}"),
    }
}

fn awaited(kind: u32, object: u32) -> String {
    match kind {
        0 => none(),
        CRE_MTX => format!("mutex {object}"),
        CRE_MBF => format!("buffer {object}"),
        CRE_MPF => format!("pool {object}"),
        other => unreachable!("no task waits for what kind {other:02X} creates"),
    }
}

fn time_left(left: i32) -> String {
    match left {
        -1 => "endless".to_string(),
        0 => none(),
        left => format!("{left} ms"),
    }
}

fn task_or_none(task: u32) -> String {
    match task {
        0 => none(),
        task => format!("task {task}"),
    }
}

// How the cells stand in lines.

struct Column {
    header: &'static str,
    width: usize,
    /// Numbers stand at the right of their column, words at the left.
    right: bool,
}

fn number(header: &'static str) -> Column {
    Column { header, width: header.len(), right: true }
}

fn word(header: &'static str) -> Column {
    Column { header, width: header.len(), right: false }
}

impl Column {
    /// Of a column whose words are longer than its header.
    fn width(self, width: usize) -> Column {
        Column { width, ..self }
    }

    fn align(&self, cell: &str) -> String {
        let width = self.width;
        if self.right {
            format!("{cell:>width$}")
        } else {
            format!("{cell:<width$}")
        }
    }
}

/// The header and the rows; or one line if there are no rows.
fn table<const N: usize>(
    empty: &str,
    columns: [Column; N],
    rows: impl ExactSizeIterator<Item = [String; N]>,
) -> String {
    if rows.len() == 0 {
        return format!("{empty}\n");
    }
    let header = columns.each_ref().map(|column| column.header.to_string());
    let line = |cells: [String; N]| {
        let aligned: Vec<String> =
            columns.iter().zip(cells).map(|(column, cell)| column.align(&cell)).collect();
        format!("{}\n", aligned.join("  ").trim_end())
    };
    iter::once(header).chain(rows).map(line).collect()
}
