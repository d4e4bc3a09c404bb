//! Whether a file of P0012001 has a period (document 02's C-17). All of the file is judged and all of its
//! rows are read; what comes behind the first row at or above the asked period is then left out.

use crate::bytes::{fields_of, records_of};
use crate::field::Type;
use crate::flows::named;
use crate::judge::{judge, whole_number};
use crate::refusal::Refusal;

/// The flow whose files have periods, and the kinds of its rows.
const FLOW: &str = "P0012001";
const ROWS: [&[u8]; 2] = [b"GSP", b"GS2"];

/// A record that is a row with a period, by its number.
struct Row {
    record: usize,
    period: i128,
}

/// Whether the file has the period: by all rows of an accepted file, else by the row where reading stops.
/// A refusal counts where it is not behind that row, or where there is none.
pub fn has_period(flow: &[u8], file: &[u8], period: usize) -> Result<bool, Refusal> {
    if named(flow)?.name != FLOW {
        return Err(Refusal::whole(22));
    }
    // Read as a field's, an asked number is a period just where a file's would be.
    let asked = period_in(period.to_string().as_bytes()).ok_or_else(|| Refusal::whole(18))?;
    let rows = rows_of(file);
    match (judge(flow, file), rows.iter().find(|row| row.period >= asked)) {
        (Ok(_), _) => Ok(rows.iter().any(|row| row.period == asked)),
        (Err(refusal), Some(stop)) if stop.record < refusal.record => Ok(stop.period == asked),
        (Err(refusal), _) => Err(refusal),
    }
}

/// The rows of a file. A row whose field 2 is no period is left out: it is refused for itself.
fn rows_of(file: &[u8]) -> Vec<Row> {
    (1..).zip(records_of(file)).filter_map(|(record, bytes)| row(record, bytes)).collect()
}

fn row(record: usize, bytes: &[u8]) -> Option<Row> {
    match fields_of(bytes).as_slice() {
        [kind, period, ..] if ROWS.contains(kind) => Some(Row { record, period: period_in(period)? }),
        _ => None,
    }
}

fn period_in(bytes: &[u8]) -> Option<i128> {
    whole_number(Type::Period, bytes)
}
