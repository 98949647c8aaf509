//! Counts run hours on one group of four cells and keeps a setting on another.
use turretmedlar::{count_up, rank, read, read_symbol, read_symbol_bands, store, value, within_reach, Reason, Spent, Zero};

fn main() -> Result<(), Reason> {
    // Levels by cell name. Cell 1 has the most charge, then cells 4, 2 and 3: the permutation of rank 0.
    let mut hours = [3, 1, 0, 2];
    let Spent { pushes, charge } = count_up(&mut hours, 10)?;
    println!("count up by 10: pushes {pushes}, charge {charge}, levels {hours:?}");
    println!("hours: rank {}", rank(read(&hours)?)?);

    // They stand at [1, 2, 3, 4], from which a group on the new zero counts.
    println!("hours on the new zero: value {}", value(read(&hours)?, Zero::New)?);

    // Refused: the highest level would pass 65,535. Nothing is changed.
    if let Err(reason) = count_up(&mut hours, 65_530) {
        println!("count up by 65,530: {reason}, number {}, levels {hours:?}", reason as u8);
    }

    // Setting 6 of 12.
    let mut setting = [3, 2, 1, 0];
    let Spent { pushes, charge } = store(&mut setting, 12, 6)?;
    println!("store 6 of 12: pushes {pushes}, charge {charge}, levels {setting:?}");
    println!("setting: symbol {}", read_symbol(&setting, 12)?);

    // The same setting by bands, a lowest and a highest level for each cell. Cells 2 and 4 may have equal ones, further down than the setting goes.
    println!("setting by bands: symbol {}", read_symbol_bands(&[3, 1, 4, 0], &[3, 2, 5, 1], 12)?);

    // Where one push can bring the group: the permutation that stands, and those one push away. Four names each.
    let mut names = [0; 16];
    let permutations = within_reach(&setting, 1, &mut names)?;
    println!("within one push: {:?}", names.chunks(4).take(permutations).collect::<Vec<_>>());
    Ok(())
}
