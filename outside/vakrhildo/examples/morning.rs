//! Plans one crowded morning of three reports, says what a refusal means and what runs under a floor, then
//! writes a roll behind a preface and plans it from there.
use vakrhildo::{plan, plan_floor, plan_roll, rows, write, Floor, Refusal, REPORTS, ROLL, ROW};

const PREFACE: &[u8] = b"typed at eight";

fn show(planned: Result<usize, Refusal>, buffer: &[u32]) {
    match planned {
        Ok(blocks) => {
            for row in rows(buffer, blocks) {
                println!(
                    "reports {} to {}: from {} to {}, {} operations",
                    row.first, row.last, row.start, row.end, row.operations
                );
            }
        }
        Err(refusal) => println!("{refusal}"),
    }
}

/// Plans the morning with a floor of three ticks an operation: the same rows, of which the second runs
/// faster.
fn floored(buffer: &mut [u32]) -> Result<(), Refusal> {
    let floor = Floor { r: 3, t: 1 };
    let (arrivals, deadlines, operations) = ([0, 0, 12], [4, 20, 16], [2, 2, 2]);
    let blocks = plan_floor(&arrivals, &deadlines, &operations, 0, 1, 1, floor, buffer)?;
    for row in rows(buffer, blocks) {
        let (ticks, operations) = row.runs_at(floor);
        println!(
            "reports {} to {} run at {ticks}/{operations} ticks per operation",
            row.first, row.last
        );
    }
    Ok(())
}

fn main() {
    let mut buffer = [0u32; ROW * REPORTS];
    // arrivals, deadlines, operations; reference 0; at most one operation a tick
    let planned = plan(&[0, 0, 12], &[4, 20, 16], &[2, 2, 2], 0, 1, 1, &mut buffer);
    show(planned, &buffer);
    let planned = plan(&[0], &[4], &[5], 0, 1, 1, &mut buffer);
    show(planned, &buffer);

    if let Err(refusal) = floored(&mut buffer) {
        println!("{refusal}");
    }

    let at = PREFACE.len();
    let mut out = [0u8; PREFACE.len() + ROLL];
    out[..at].copy_from_slice(PREFACE);
    match write(&[0, 6], &[10, 10], &[2, 2], 0, 1, 1, &mut out, at) {
        Ok(bytes) => {
            println!("a roll of {bytes} bytes from byte {at} on");
            let planned = plan_roll(&out[..at + bytes], &mut buffer);
            show(planned, &buffer);
        }
        Err(refusal) => println!("{refusal}"),
    }
}
