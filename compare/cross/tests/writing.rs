//! Held sheets written, by types and by lists, right and wrong, and what was written read again.
use cross::cases::{pairs, permutations, record, CEILING, WRONG_SIZES};
use cross::sheet::{longest, of_the_repository, random_sheet, section, small_sheets, EXAMPLE};
use cross::{fill, held, twin, Cross, Random, Rows};
use model::{Command, Group, Job, Permutation, Sheet, Zero};
use turretmedlar::SHEET_BYTES;

fn count_up(group: u8, k: u32) -> Command {
    Command { group, job: Job::CountUp { k } }
}

/// Of these names, with any n.
fn rewrite(group: u8, n: usize, names: &[u8]) -> Command {
    Command { group, job: Job::Rewrite { target: Permutation { n, ..twin(record(names)) } } }
}

fn store(group: u8, m: u64, symbol: u64) -> Command {
    Command { group, job: Job::Store { m, symbol } }
}

fn change_zero(group: u8) -> Command {
    Command { group, job: Job::ChangeZero }
}

/// Two groups, the second on the new zero, and a command of each kind on each.
fn small() -> Sheet {
    let groups = [Group::from_levels(&[3, 1, 2]), Group { zero: Zero::New, ..Group::from_levels(&[CEILING, 258]) }];
    let first = [rewrite(0, 3, &[3, 1, 2]), count_up(0, 0x0403_0201), store(0, 6, 5), change_zero(0)];
    let second = [rewrite(1, 2, &[2, 1]), count_up(1, u32::MAX), store(1, u64::MAX, u64::MAX), change_zero(1)];
    Sheet { groups: groups.to_vec(), commands: [first, second].concat() }
}

/// More bytes than the sheet has; enough that one that is refused could be written.
fn enough(groups: usize, commands: usize) -> Vec<u8> {
    fill(5 + 42 * groups.min(65) + 22 * commands.min(1001))
}

/// Writes a held sheet. What was written is read again as the same, but for the levels past n.
fn write(cross: &mut Cross, sheet: &Sheet) -> Result<Vec<u8>, u8> {
    let bytes = cross.write_sheet(sheet, &enough(sheet.groups.len(), sheet.commands.len()))?;
    let mut read = sheet.clone();
    read.groups.iter_mut().for_each(|group| group.levels[group.n..].fill(0));
    assert_eq!(model::read_sheet(&bytes), Ok(read), "what was written of {sheet:?}");
    Ok(bytes)
}

fn write_rows(cross: &mut Cross, rows: &Rows) -> Result<Vec<u8>, u8> {
    cross.write_rows(rows, &enough(rows.sizes.len(), rows.kinds.len()))
}

/// Writes what these bytes say, where they are accepted, into lists of these lengths: the same bytes.
fn write_again(cross: &mut Cross, bytes: &[u8], rooms: impl Fn(usize) -> Vec<usize>) {
    if let Ok(sheet) = model::read_sheet(bytes) {
        for room in rooms(bytes.len()) {
            let written = cross.write_sheet(&sheet, &fill(room));
            assert_eq!(written.as_deref(), if room < bytes.len() { Err(&9) } else { Ok(bytes) }, "in {room} bytes");
        }
    }
}

fn about(length: usize) -> Vec<usize> {
    vec![0, 1, length - 1, length, length + 1, length + 20]
}

/// A held sheet that no fault is in, with levels past n that are not to be seen.
fn random_held(random: &mut Random, groups: usize, commands: usize) -> Sheet {
    let mut sheet = model::read_sheet(&random_sheet(random, groups, commands)).expect("a sheet without fault");
    for group in &mut sheet.groups {
        let inside = group.levels[random.index(group.n)];
        group.levels[group.n..].iter_mut().for_each(|level| *level = random.pick(&[inside, CEILING, 1]));
    }
    sheet
}

#[test]
fn the_example_of_document_01() {
    let (mut cross, mut out) = (Cross::default(), [9; 45]);
    let target = turretmedlar::Permutation::new(&[3, 1, 2]).unwrap();
    let groups = [turretmedlar::Group::new(&[3, 1, 2]).unwrap()];
    let commands = [turretmedlar::Command::count(0, 4), turretmedlar::Command::rewrite(0, target), turretmedlar::Command::store(0, 3, 3)];
    assert_eq!(turretmedlar::write_sheet(&groups, &commands, &mut out), Ok(39));
    assert_eq!(out[..], [&EXAMPLE[..], &[9; 6]].concat());
    let refused = turretmedlar::write_sheet(&groups, &commands, &mut out[..38]).map_err(|reason| (reason, reason.to_string()));
    assert_eq!(refused, Err((turretmedlar::Reason::Paper, "paper".into())));
    assert_eq!(turretmedlar::Group::new(&[0; 21]), Err(turretmedlar::Reason::Size));
    write_again(&mut cross, &EXAMPLE, |length| (0..length + 9).collect());
    cross.met(&[0, 9]);
}

#[test]
fn that_example_on_the_new_zero() {
    let (mut cross, mut out) = (Cross::default(), [9; 45]);
    let bytes = [&EXAMPLE[..], &[1, 0]].concat();
    let (groups, commands) = held(&model::read_sheet(&bytes).unwrap());
    assert_eq!(groups, [turretmedlar::Group::new(&[3, 1, 2]).unwrap().on(turretmedlar::Zero::New)]);
    assert_eq!(turretmedlar::write_sheet(&groups, &commands, &mut out), Ok(41));
    assert_eq!(out[..], [&bytes[..], &[9; 4]].concat());
    write_again(&mut cross, &bytes, |length| (0..length + 9).collect());
    cross.met(&[0, 9]);
}

/// "Writing takes kind 4 as well": its two bytes, and the text of what was written.
#[test]
fn a_change_between_two_counts() {
    let (mut cross, mut out) = (Cross::default(), [9; 30]);
    let groups = [turretmedlar::Group::new(&[3, 1, 2]).unwrap()];
    let commands = [turretmedlar::Command::count(0, 4), turretmedlar::Command::change_zero(0), turretmedlar::Command::count(0, 1)];
    assert_eq!(turretmedlar::write_sheet(&groups, &commands, &mut out), Ok(24));
    let bytes = [&[1, 3, 3, 0, 1, 0, 2, 0, 3, 0][..], &[1, 0, 4, 0, 0, 0], &[4, 0], &[1, 0, 1, 0, 0, 0]].concat();
    assert_eq!(out[..], [&bytes[..], &[9; 6]].concat());
    cross.bench(&bytes, b"c 1 0 4\nc 2 0 0\nc 3 0 1\ng 0 1 7 6 8\n", &fill(40));
    write_again(&mut cross, &bytes, |length| (0..length + 9).collect());
    cross.met(&[0, 9]);
}

/// "The writer writes the section when a group is on the new zero": into each room from that of the sheet without the section.
#[test]
fn every_choice_of_zeros_on_six_groups() {
    let mut cross = Cross::default();
    let mut sheet = small();
    sheet.groups = [&[3, 1, 2][..], &[CEILING, 258], &[4, 3, 2, 1], &[9, 7], &[0, CEILING], &[1, 2, 3]].map(Group::from_levels).to_vec();
    let without = write(&mut cross, &sheet).expect("a sheet without fault");
    for choice in 0..64 {
        let new = |number: u8| choice >> number & 1 == 1;
        (0..).zip(&mut sheet.groups).for_each(|(number, group)| group.zero = if new(number) { Zero::New } else { Zero::Old });
        let bytes = [&without[..], &section(&(0..6).filter(|&number| new(number)).collect::<Vec<u8>>())].concat();
        assert_eq!(write(&mut cross, &sheet).as_ref(), Ok(&bytes));
        for room in without.len() - 1..=bytes.len() + 1 {
            let written = cross.write_sheet(&sheet, &fill(room));
            assert_eq!(written.as_deref(), if room < bytes.len() { Err(&9) } else { Ok(&bytes[..]) }, "{choice:b} in {room} bytes");
        }
    }
    cross.met(&[0, 9]);
}

/// A zero that is neither is value, of as many groups as there are, but not past them.
#[test]
fn zeros_that_are_neither() {
    let mut cross = Cross::default();
    for groups in [1, 2, 3, 63, 64, 65, 66, 257] {
        let rows = Rows::of(&Sheet { groups: vec![Group::from_levels(&[5, 700]); groups], commands: vec![count_up(0, 1)] });
        for at in [0, groups / 2, groups - 1] {
            for value in [2, 3, 128, 129, 254, 255] {
                let mut wrong = rows.clone();
                wrong.zeros[at] = value;
                assert_eq!(write_rows(&mut cross, &wrong), Err(5), "{value} of group {at} of {groups}");
            }
        }
        let past = Rows { zeros: [&rows.zeros[..], &[255, 2]].concat(), ..rows.clone() };
        assert_eq!(write_rows(&mut cross, &past), write_rows(&mut cross, &rows));
    }
    cross.met(&[0, 5, 8]);
}

#[test]
fn the_sheets_of_the_repository() {
    let mut cross = Cross::default();
    of_the_repository().iter().for_each(|bytes| write_again(&mut cross, bytes, about));
    cross.met(&[0, 9]);
}

#[test]
fn small_sheets_with_each_byte_set_to_every_value() {
    let mut cross = Cross::default();
    for bytes in small_sheets() {
        for (at, value) in pairs(bytes.len(), 256) {
            let mut damaged = bytes.clone();
            damaged[at] = value as u8;
            write_again(&mut cross, &damaged, |length| vec![length - 1, length]);
        }
    }
    cross.met(&[0, 9]);
}

#[test]
fn the_longest_sheet() {
    let (mut cross, mut random) = (Cross::default(), Random::seeded(501));
    let bytes = longest(&mut random);
    write_again(&mut cross, &bytes, |_| about(SHEET_BYTES));
    let mut sheet = model::read_sheet(&bytes).unwrap();
    for (fault, number) in [(count_up(64, 1), 8), (rewrite(63, 19, &[]), 2), (change_zero(64), 8)] {
        sheet.commands[999] = fault;
        assert_eq!(write(&mut cross, &sheet), Err(number), "the last command is {fault:?}");
    }
    cross.met(&[0, 2, 8, 9]);
}

#[test]
fn random_sheets_written_again() {
    let (mut cross, mut random) = (Cross::default(), Random::seeded(509));
    for most in (0..300).map(|round| [3, 20, 64][round % 3]) {
        let (groups, commands) = (1 + random.index(most), random.index(most));
        write_again(&mut cross, &random_sheet(&mut random, groups, commands), |length| vec![length - 1, length]);
    }
    cross.met(&[0, 9]);
}

/// Worked, they give the text of the model.
#[test]
fn random_sheets_written_and_worked() {
    let (mut cross, mut random) = (Cross::default(), Random::seeded(502));
    let mut counts = vec![(1, 0), (64, 0), (1, 1000), (64, 1000)];
    counts.extend((0..300).map(|round| [3, 20, 64][round % 3]).map(|most| (1 + random.index(most), random.index(2 * most))));
    for (groups, commands) in counts {
        let sheet = random_held(&mut random, groups, commands);
        let bytes = write(&mut cross, &sheet).expect("a sheet without fault");
        about(bytes.len()).into_iter().for_each(|room| drop(cross.write_sheet(&sheet, &fill(room))));
        let text = model::bench(&bytes);
        cross.bench(&bytes, &text, &fill(text.len() + 3));
    }
    cross.met(&[0, 9]);
}

#[test]
fn lists_of_bytes_of_every_length() {
    let (mut cross, mut random) = (Cross::default(), Random::seeded(503));
    let others = [(1, 0), (2, 9), (5, 20)].map(|(groups, commands)| random_held(&mut random, groups, commands));
    for sheet in others.iter().chain([&small()]) {
        let length = write(&mut cross, sheet).expect("a sheet without fault").len();
        (0..length + 3).for_each(|room| drop(cross.write_sheet(sheet, &fill(room))));
    }
    cross.met(&[0, 9]);
}

/// Groups of two and of three cells with all sequences of their levels, with ties, and of no sheet's size; every other one on the new zero.
fn small_groups() -> Vec<Group> {
    let sequences = permutations(3).into_iter().map(|names| names.iter().map(|&name| [0, 1, 258][usize::from(name) - 1]).collect::<Vec<u16>>());
    let ties = [[7, 7, 1], [7, 1, 7], [1, 7, 7]].map(|levels| levels.to_vec());
    let pairs = [[0, 258], [258, 0], [0, 0]].map(|levels| levels.to_vec());
    let wrong = [1, 21].map(|n| Group { n, ..Group::from_levels(&[2, 1]) });
    let groups = sequences.chain(ties).chain(pairs).map(|levels| Group::from_levels(&levels)).chain(wrong);
    groups.zip([Zero::New, Zero::Old].into_iter().cycle()).map(|(group, zero)| Group { zero, ..group }).collect()
}

/// Rewrites of one to three names, with names past them too, count-ups, stores and changes, on groups 0 to 2.
fn small_commands() -> Vec<Command> {
    let names = (0..8).map(|bits: u8| [bits & 2, bits & 4, bits & 1]);
    let rewrites = names.flat_map(|names| pairs(2, 3).map(move |(group, n)| rewrite(group as u8, 1 + n, &names)));
    let others = (0..3).flat_map(|group| [count_up(group, 0x0403_0201), store(group, 0x0807_0605_0403_0201, 7), change_zero(group)]);
    rewrites.chain(others).collect()
}

/// All sheets of one of these groups and two of these commands, and of up to two and up to one.
#[test]
fn every_small_sheet() {
    let (mut cross, groups, commands) = (Cross::default(), small_groups(), small_commands());
    for (one, other) in pairs(commands.len(), commands.len()) {
        for &group in &groups {
            let _ = write(&mut cross, &Sheet { groups: vec![group], commands: vec![commands[one], commands[other]] });
        }
    }
    let two = pairs(groups.len(), groups.len()).map(|(one, other)| vec![groups[one], groups[other]]);
    for groups in two.chain(groups.iter().map(|&group| vec![group])).chain([vec![]]) {
        for commands in commands.iter().map(|&command| vec![command]).chain([vec![]]) {
            let _ = write(&mut cross, &Sheet { groups: groups.clone(), commands });
        }
    }
    cross.met(&[0, 1, 2, 3, 4, 8]);
}

/// The number of a fault, and how to make it.
type Fault = (u8, fn(&mut Rows));

/// Faults of `small`, in the sequence in which they are met: a list too short before all, then a zero that is neither, then those of the sheet.
const FAULTS: [Fault; 23] = [
    (2, |rows| rows.levels.truncate(20 * rows.sizes.len() - 1)),
    (2, |rows| rows.zeros.truncate(rows.sizes.len() - 1)),
    (2, |rows| rows.groups.truncate(rows.kinds.len() - 1)),
    (2, |rows| rows.numbers.truncate(2 * rows.kinds.len() - 1)),
    (2, |rows| rows.names.truncate(20 * rows.kinds.len() - 1)),
    (5, |rows| rows.zeros[0] = 2),
    (5, |rows| rows.zeros[1] = 255),
    (8, |rows| (rows.sizes.resize(65, 2), rows.levels.resize(1300, 0), rows.zeros.resize(65, 1)).0),
    (1, |rows| rows.sizes[0] = 21),
    (4, |rows| rows.levels[2] = rows.levels[0]),
    (1, |rows| rows.sizes[1] = 1),
    (4, |rows| rows.levels[21] = rows.levels[20]),
    (8, |rows| (rows.kinds.resize(1001, 1), rows.groups.resize(1001, 0), rows.numbers.resize(2002, 0), rows.names.resize(20_020, 0)).0),
    (8, |rows| rows.kinds[0] = 5),
    (8, |rows| rows.groups[0] = 2),
    (2, |rows| rows.numbers[0] = 2),
    (3, |rows| rows.names[19] = 1),
    (8, |rows| rows.numbers[2] = 1 << 32),
    (8, |rows| rows.groups[2] = 255),
    (8, |rows| rows.groups[3] = 2),
    (2, |rows| rows.numbers[8] = 1 << 32 | 2),
    (3, |rows| rows.names[82] = 255),
    (8, |rows| rows.kinds[7] = 0),
];

/// "The first met in the sheet's sequence"; paper "comes after all others". The faults are made from the last to the first.
#[test]
fn the_first_fault_met_decides() {
    let (mut cross, mut random) = (Cross::default(), Random::seeded(504));
    let length = write(&mut cross, &small()).expect("a sheet without fault").len();
    let few = (0..1_u64 << FAULTS.len()).filter(|choice| choice.count_ones() <= 3);
    let many: Vec<u64> = (0..500).map(|_| random.number()).collect();
    for choice in few.chain(many) {
        let chosen: Vec<_> = FAULTS.iter().enumerate().filter(|(place, _)| choice >> place & 1 == 1).map(|(_, fault)| fault).collect();
        let mut rows = Rows::of(&small());
        chosen.iter().rev().for_each(|(_, fault)| fault(&mut rows));
        let first = chosen.first().map(|(number, _)| *number);
        assert_eq!(cross.write_rows(&rows, &fill(length)).err(), first, "{choice:b}");
        for room in [0, length - 1] {
            assert_eq!(cross.write_rows(&rows, &fill(room)).err(), first.or(Some(9)), "{choice:b} in {room} bytes");
        }
    }
    cross.met(&[0, 1, 2, 3, 4, 5, 8, 9]);
}

/// The list over and over, to a length.
fn resized<T: Copy>(list: &[T], length: usize) -> Vec<T> {
    list.iter().copied().cycle().take(length).collect()
}

#[test]
fn lists_of_every_length() {
    let (mut cross, rows) = (Cross::default(), Rows::of(&small()));
    for (sizes, levels) in pairs(5, 90) {
        let rows = Rows { sizes: resized(&rows.sizes, sizes), levels: resized(&rows.levels, levels), zeros: vec![1; sizes], ..rows.clone() };
        assert_eq!(write_rows(&mut cross, &rows) == Err(2), levels < 20 * sizes, "{sizes} groups with {levels} levels");
    }
    for (sizes, zeros) in pairs(5, 6) {
        let rows = Rows { sizes: resized(&rows.sizes, sizes), levels: resized(&rows.levels, 80), zeros: vec![1; zeros], ..rows.clone() };
        assert_eq!(write_rows(&mut cross, &rows) == Err(2), zeros < sizes, "{sizes} groups with {zeros} zeros");
    }
    for ((kinds, groups), numbers) in pairs(6, 7).flat_map(|counts| (0..12).map(move |numbers| (counts, numbers))) {
        for names in [0, 1, 19, 20, 21, 39, 40, 41, 59, 60, 61, 79, 80, 81, 99, 100, 101] {
            let mut rows = Rows { kinds: resized(&rows.kinds, kinds), groups: resized(&rows.groups, groups), ..rows.clone() };
            (rows.numbers, rows.names) = (resized(&rows.numbers, numbers), resized(&rows.names, names));
            let short = groups < kinds || numbers < 2 * kinds || names < 20 * kinds;
            assert_eq!(write_rows(&mut cross, &rows) == Err(2), short, "{kinds} commands with {groups} groups, {numbers} numbers, {names} names");
        }
    }
    cross.met(&[0, 2, 8]);
}

/// Each entry that is not looked at, with anything there: past n, past the count, beside a count-up, a target, a store or a change.
#[test]
fn what_is_not_looked_at() {
    let (mut cross, mut random) = (Cross::default(), Random::seeded(505));
    for _ in 0..400 {
        let (groups, commands) = (1 + random.index(5), random.index(12));
        let sheet = random_held(&mut random, groups, commands);
        let bytes = write(&mut cross, &sheet).expect("a sheet without fault");
        let mut rows = Rows::of(&sheet);
        (0..random.index(50)).for_each(|_| rows.levels.push(random.number() as u16));
        (0..random.index(50)).for_each(|_| rows.zeros.push(random.number() as u8));
        (0..random.index(50)).for_each(|_| rows.groups.push(random.number() as u8));
        (0..random.index(50)).for_each(|_| rows.numbers.push(random.number()));
        (0..random.index(50)).for_each(|_| rows.names.push(random.number() as u8));
        for (row, &kind) in rows.kinds.iter().enumerate() {
            let seen = [0, 1, 1, 2, 0][usize::from(kind)];
            rows.numbers[2 * row..][seen..2].iter_mut().for_each(|number| *number = random.number());
            rows.names[20 * row..][..if kind == 2 { 0 } else { 20 }].iter_mut().for_each(|name| *name = random.number() as u8);
        }
        assert_eq!(write_rows(&mut cross, &rows), Ok(bytes), "{rows:?}");
    }
    cross.met(&[0]);
}

/// The lists of `small`, changed and written.
fn changed(cross: &mut Cross, change: impl Fn(&mut Rows)) {
    let mut rows = Rows::of(&small());
    change(&mut rows);
    let _ = write_rows(cross, &rows);
}

#[test]
fn each_entry_of_small_lists_set_to_many_values() {
    let (mut cross, rows) = (Cross::default(), Rows::of(&small()));
    for (at, value) in pairs(rows.kinds.len(), 256) {
        changed(&mut cross, |rows| rows.kinds[at] = value as u8);
        changed(&mut cross, |rows| rows.groups[at] = value as u8);
    }
    pairs(rows.zeros.len(), 256).for_each(|(at, value)| changed(&mut cross, |rows| rows.zeros[at] = value as u8));
    pairs(rows.names.len(), 256).for_each(|(at, value)| changed(&mut cross, |rows| rows.names[at] = value as u8));
    for value in (0..25).chain(WRONG_SIZES).chain([256 + 3, 1 << 32 | 2]) {
        (0..rows.sizes.len()).for_each(|at| changed(&mut cross, |rows| rows.sizes[at] = value));
        (0..rows.numbers.len()).for_each(|at| changed(&mut cross, |rows| rows.numbers[at] = value as u64));
    }
    for value in [1 << 16, 1 << 31, u64::from(u32::MAX) - 1, u64::from(u32::MAX), 1 << 32, 1 << 63, 0x0807_0605_0403_0201] {
        (0..rows.numbers.len()).for_each(|at| changed(&mut cross, |rows| rows.numbers[at] = value));
    }
    for (at, value) in pairs(rows.levels.len(), 260).chain((0..rows.levels.len()).map(|at| (at, usize::from(CEILING)))) {
        changed(&mut cross, |rows| rows.levels[at] = value as u16);
    }
    cross.met(&[0, 1, 2, 3, 4, 5, 8]);
}

#[test]
fn counts_and_group_numbers_about_their_ends() {
    let mut cross = Cross::default();
    for groups in (0..=66_usize).chain([128, 255, 256, 257, 320, 65_537]) {
        for group in [0, groups / 2, groups.saturating_sub(1), groups, groups + 1, 255].map(|group| group.min(255) as u8) {
            for command in [count_up(group, 1), store(group, 1, 0), rewrite(group, 2, &[9, 9]), change_zero(group)] {
                let zero = if groups % 2 == 0 { Zero::New } else { Zero::Old };
                let sheet = Sheet { groups: vec![Group { zero, ..Group::from_levels(&[5, 700]) }; groups], commands: vec![command] };
                assert_eq!(write(&mut cross, &sheet).is_ok(), (1..=64).contains(&groups) && usize::from(group) < groups);
            }
        }
    }
    for commands in [0, 1, 255, 256, 257, 999, 1000, 1001, 1002, 1024, 65_535, 65_536, 65_537, 66_536] {
        let sheet = Sheet { groups: vec![Group::from_levels(&[5, 6])], commands: vec![count_up(0, 1); commands] };
        assert_eq!(write(&mut cross, &sheet).is_ok(), commands <= 1000);
    }
    cross.met(&[0, 8]);
}

#[test]
fn sizes_and_ties_in_each_of_several_groups() {
    let (mut cross, mut random) = (Cross::default(), Random::seeded(506));
    for n in (0..=22).chain(WRONG_SIZES) {
        for (one, other) in pairs(4, 4) {
            let mut sheet = random_held(&mut random, 4, 3);
            let tied = random.index(sheet.groups[other].n);
            sheet.groups[other].levels[0] = sheet.groups[other].levels[tied];
            sheet.groups[one].n = n;
            let _ = write(&mut cross, &sheet);
        }
    }
    cross.met(&[0, 1, 2, 4]);
}

/// One of the ways to damage a held sheet; some leave it one that can be written.
fn damage(random: &mut Random, sheet: &mut Sheet) {
    let (group, command) = (random.index(sheet.groups.len()), random.index(sheet.commands.len()));
    let size = random.pick(&[1, 2, 3, 20, 21, 256 + 3, usize::MAX]);
    match (random.index(10), sheet.commands.get_mut(command)) {
        (0, _) => sheet.groups[group].n = size,
        (1, _) => sheet.groups[group].levels.swap(random.index(20), random.index(20)),
        (2, _) => sheet.groups[group].levels[random.index(20)] = sheet.groups[group].levels[random.index(20)],
        (3, _) => sheet.groups.truncate(1 + group),
        (4, _) if random.index(20) == 0 => sheet.groups.resize(64 + random.index(3), Group::from_levels(&[1, 2])),
        (5, _) if random.index(20) == 0 => sheet.commands.resize(999 + random.index(3), count_up(0, 1)),
        (6, _) => sheet.groups[group].zero = Zero::New,
        (7, Some(command)) => command.group = random.pick(&[command.group.wrapping_add(1), 63, 64, 255]),
        (8, Some(command)) => command.job = Job::ChangeZero,
        (_, Some(Command { job: Job::Rewrite { target }, .. })) => {
            let past = random.index(20);
            target.cells[past] = random.pick(&[0, 1, 255]);
            target.n = random.pick(&[target.n, target.n, size]);
        }
        _ => {}
    }
}

#[test]
fn random_held_sheets_damaged() {
    let (mut cross, mut random) = (Cross::default(), Random::seeded(507));
    for _ in 0..6000 {
        let (groups, commands) = (1 + random.index(5), random.index(12));
        let mut sheet = random_held(&mut random, groups, commands);
        (0..=random.index(3)).for_each(|_| damage(&mut random, &mut sheet));
        let _ = write(&mut cross, &sheet);
    }
    cross.met(&[0, 1, 2, 3, 4, 8]);
}

/// One entry changed, or the list a little shorter or longer.
fn damage_list<T: Copy>(random: &mut Random, list: &mut Vec<T>, values: &[T]) {
    let (at, value) = (random.index(list.len()), random.pick(values));
    match random.index(6) {
        0 => list.truncate(list.len().saturating_sub(1 + random.index(3))),
        1 => list.push(value),
        2 => list.insert(at, value),
        _ => list.iter_mut().skip(at).take(1).for_each(|entry| *entry = value),
    }
}

#[test]
fn random_lists_damaged() {
    let (mut cross, mut random) = (Cross::default(), Random::seeded(508));
    for _ in 0..8000 {
        let (groups, commands) = (1 + random.index(4), random.index(8));
        let mut rows = Rows::of(&random_held(&mut random, groups, commands));
        for _ in 0..=random.index(3) {
            match random.index(7) {
                0 => damage_list(&mut random, &mut rows.sizes, &[0, 1, 2, 20, 21, 258, usize::MAX]),
                1 => damage_list(&mut random, &mut rows.levels, &[0, 1, CEILING]),
                2 => damage_list(&mut random, &mut rows.zeros, &[0, 1, 2, 255]),
                3 => damage_list(&mut random, &mut rows.kinds, &[0, 1, 2, 3, 4, 5, 255]),
                4 => damage_list(&mut random, &mut rows.groups, &[0, 1, 2, 64, 255]),
                5 => damage_list(&mut random, &mut rows.numbers, &[0, 2, 20, 258, u32::MAX as u64, 1 << 32, u64::MAX]),
                _ => damage_list(&mut random, &mut rows.names, &[0, 1, 20, 255]),
            }
        }
        let room = random.index(300);
        let _ = cross.write_rows(&rows, &fill(room));
    }
    cross.met(&[0, 1, 2, 3, 4, 5, 8, 9]);
}
