//! What request 9 says of rules, cell by cell.

/// What comes of rules, before the lent table is looked at: a refusal's number and values, or the classes of all cells.
pub type Verdict = Result<Vec<u8>, (u64, Vec<u64>)>;

/// A rule's tag id, lowest and highest zoom, and class, from its bits.
fn parts(rule: &[u8]) -> (usize, usize, usize, u8) {
    let bits: Vec<usize> = rule
        .iter()
        .flat_map(|byte| (0..8).rev().map(move |bit| usize::from(byte >> bit & 1)))
        .collect();
    let number = |from: usize, to: usize| bits[from..to].iter().fold(0, |sum, bit| 2 * sum + bit);
    (number(0, 16), number(16, 21), number(21, 26), number(26, 32) as u8)
}

pub fn check(rules: &[u8], way_tags: u16) -> Verdict {
    let tags = usize::from(way_tags);
    if rules.len() % 4 != 0 {
        return Err((22, Vec::new()));
    }
    let rules: Vec<_> = rules.chunks(4).map(parts).collect();
    if rules.iter().any(|&(tag, lowest, highest, _)| tag >= tags || lowest > highest) {
        return Err((22, Vec::new()));
    }
    // how often each cell is named, and the class that it was given last
    let mut cells = vec![(0, 0); 32 * tags];
    for (tag, lowest, highest, class) in rules {
        for zoom in lowest..=highest {
            let (given, _) = cells[tag * 32 + zoom];
            cells[tag * 32 + zoom] = (given + 1, class);
        }
    }
    for (number, wrong) in [(23, (|given| given > 1) as fn(u32) -> bool), (24, |given| given == 0)]
    {
        for tag in 0..tags {
            for zoom in 0..32 {
                if wrong(cells[tag * 32 + zoom].0) {
                    return Err((number, vec![tag as u64, zoom as u64]));
                }
            }
        }
    }
    Ok(cells.into_iter().map(|(_, class)| class).collect())
}

/// The number of the answer with a lent table of this length, and its values; 15 comes last.
pub fn answer(verdict: &Verdict, lent: usize) -> (u64, Vec<u64>) {
    match verdict {
        Err(refusal) => refusal.clone(),
        Ok(classes) if lent < classes.len() => (15, vec![classes.len() as u64, 0, 0, 0, 0, 0]),
        Ok(_) => (0, Vec::new()),
    }
}

/// Whether a way with these tags is shown by a table.
pub fn shows(table: &[u8], zoom: u8, ids: &[u64]) -> bool {
    let zoom = u128::from(zoom.min(31));
    ids.iter().any(|&id| {
        let cell = u128::from(id) * 32 + zoom;
        usize::try_from(cell).ok().and_then(|cell| table.get(cell)).is_some_and(|&class| class != 0)
    })
}

/// The same by the rules themselves, which pass.
pub fn shown_by(rules: &[u8], zoom: u8, ids: &[usize]) -> bool {
    let zoom = usize::from(zoom.min(31));
    let shows = |id: usize| {
        rules.chunks(4).map(parts).any(|(tag, lowest, highest, class)| {
            tag == id && lowest <= zoom && zoom <= highest && class != 0
        })
    };
    ids.iter().any(|&id| shows(id))
}
