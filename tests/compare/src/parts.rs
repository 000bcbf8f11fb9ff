//! Seeded parts lists (document 02, order 4): whole shapes, heaps of lines, and nests of lists and
//! blocks around the greatest depth.

use crate::random::Random;
use crate::words::*;

/// A text around lists.
pub fn list_text(random: &mut Random) -> Vec<u8> {
    let mut text = random.pick(LIST_FRONTS).to_vec();
    match random.below(20) {
        0..11 => add_lists(&mut text, random),
        11..18 => add_heap(&mut text, random),
        _ => add_nest(&mut text, random),
    }
    text.extend(random.pick(LIST_ENDS));
    if random.chance(15) {
        text.pop();
    }
    text
}

fn add_lists(text: &mut Vec<u8>, random: &mut Random) {
    for _ in 0..random.between(1, 2) {
        let indentation = *random.pick(&[&0, &0, &0, &1, &2, &8]);
        add_list(text, indentation, 3, random);
    }
}

/// Items of one indentation, each with what it holds; now and then a blank line or two, or an item of
/// another indentation.
pub fn add_list(text: &mut Vec<u8>, indentation: usize, levels: usize, random: &mut Random) {
    for _ in 0..random.between(1, 3) {
        let slip = if random.chance(8) { random.below(3) } else { 0 };
        let indentation = indentation.saturating_sub(slip);
        add_item_line(text, indentation, random);
        for _ in 0..random.below(3) {
            let further = *random.pick(&[&1, &2, &2, &2, &4, &8]);
            add_held(text, indentation + further, levels, random);
        }
        text.extend(random.pick(ITEM_GAPS));
    }
}

fn add_item_line(text: &mut Vec<u8>, indentation: usize, random: &mut Random) {
    add_indentation(text, indentation, random);
    let bullets = if random.chance(95) {
        BULLETS
    } else {
        NO_BULLETS
    };
    text.extend(random.pick(bullets));
    text.extend(random.pick(AFTER_BULLETS));
    if random.chance(12) {
        text.extend(random.pick(COUNTER_SETS));
    }
    if random.chance(15) {
        text.extend(random.pick(CHECK_BOXES));
    }
    if random.chance(75) {
        text.extend(random.pick(ITEM_TEXTS));
    }
    text.extend(random.pick(LINE_ENDS));
}

/// What an item holds below its first line, mostly indented as said.
fn add_held(text: &mut Vec<u8>, indentation: usize, levels: usize, random: &mut Random) {
    match random.below(16) {
        0..3 => add_line(text, indentation, b"text", random),
        3 => {
            text.extend(random.pick(BLANK_LINES));
            add_line(text, indentation, b"more", random);
        }
        4 | 5 => add_sheltered(text, indentation, BLOCK_PAIRS, random),
        6 => add_sheltered(text, indentation, DRAWER_PAIRS, random),
        7 | 8 => add_table(text, indentation, random),
        9 => add_run(text, indentation, random),
        10 => add_line(text, indentation, random_body(random), random),
        11 => {
            let anywhere = random.below(indentation + 2);
            add_line(text, anywhere, random_body(random), random);
        }
        _ if levels > 0 => add_list(text, indentation, levels - 1, random),
        _ => add_item_line(text, indentation, random),
    }
}

fn random_body(random: &mut Random) -> &'static [u8] {
    random.pick(HEAP_BODIES)
}

/// A block or drawer whose later lines are indented anyhow; sometimes its closer is missing, or stands
/// where a later one is closed.
fn add_sheltered(
    text: &mut Vec<u8>,
    indentation: usize,
    pairs: &[&[&'static [u8]; 2]],
    random: &mut Random,
) {
    let [opener, closer] = *random.pick(pairs);
    add_line(text, indentation, opener, random);
    for _ in 0..random.below(4) {
        if random.chance(25) {
            text.extend(b"\n\n");
        }
        let anywhere = random.below(indentation + 1);
        add_line(text, anywhere, random_body(random), random);
    }
    if random.chance(80) {
        let anywhere = *random.pick(&[&0, &indentation]);
        add_line(text, anywhere, closer, random);
    }
}

/// A table whose later rows and formula lines are indented anyhow.
fn add_table(text: &mut Vec<u8>, indentation: usize, random: &mut Random) {
    add_line(text, indentation, b"| a |", random);
    for _ in 0..random.below(3) {
        let anywhere = *random.pick(&[&0, &indentation]);
        add_line(text, anywhere, random.pick(ROWS), random);
    }
    for _ in 0..random.below(2) {
        let anywhere = *random.pick(&[&0, &indentation]);
        add_line(text, anywhere, random.pick(FORMULAS), random);
    }
}

/// A comment or fixed-width area whose later lines may be out of the item.
fn add_run(text: &mut Vec<u8>, indentation: usize, random: &mut Random) {
    let body = random.pick(&[b"# c".as_slice(), b": f"]);
    add_line(text, indentation, body, random);
    for _ in 0..random.between(1, 2) {
        let anywhere = *random.pick(&[&0, &indentation]);
        add_line(text, anywhere, body, random);
    }
}

/// Lines of few sorts at few indentations, in any order.
fn add_heap(text: &mut Vec<u8>, random: &mut Random) {
    for _ in 0..random.between(2, 16) {
        let indentation = *random.pick(&[&0, &0, &1, &2, &2, &4, &8]);
        match random.below(9) {
            0..3 => add_item_line(text, indentation, random),
            3 => text.extend(random.pick(BLANK_LINES)),
            _ => add_line(text, indentation, random_body(random), random),
        }
    }
}

/// Lists and greater blocks one in the other around the greatest depth; within a block the indentation
/// may begin anew.
fn add_nest(text: &mut Vec<u8>, random: &mut Random) {
    let mut indentation = 0;
    let mut closers = Vec::new();
    let lists = random.between(10, 100);
    for level in 0..random.between(28, 36) {
        if random.chance(lists) {
            add_line(text, indentation, b"-", random);
            indentation += 1;
        } else {
            let opener = format!("#+begin_b{level}");
            add_line(text, indentation, opener.as_bytes(), random);
            closers.push(format!("#+end_b{level}\n"));
            indentation *= random.below(2);
        }
    }
    for line in random.pick(INNERMOST).split_inclusive(|byte| *byte == 10) {
        text.resize(text.len() + indentation, b' ');
        text.extend(line);
    }
    text.extend(closers.iter().rev().flat_map(|closer| closer.bytes()));
}

fn add_line(text: &mut Vec<u8>, indentation: usize, body: &[u8], random: &mut Random) {
    add_indentation(text, indentation, random);
    text.extend(body);
    text.push(b'\n');
}

/// Spaces, of which eight are now and then a tab.
fn add_indentation(text: &mut Vec<u8>, indentation: usize, random: &mut Random) {
    let tabs = if random.chance(40) {
        indentation / 8
    } else {
        0
    };
    let spaces = indentation - 8 * tabs;
    let before = random.below(spaces + 1);
    text.resize(text.len() + before, b' ');
    text.resize(text.len() + tabs, b'\t');
    text.resize(text.len() + spaces - before, b' ');
}
