//! Where the commands of a log stand, as far as they can be told.

/// Where the events of a log begin, where its marks stand, and where both end.
pub struct Layout {
    pub fields: usize,
    pub events: Vec<usize>,
    pub marks: Vec<usize>,
    pub end: usize,
}

impl Layout {
    pub fn of(log: &[u8]) -> Layout {
        let fields = log.chunks(2).take_while(|two| two[0] == 0x01).count();
        let mut layout = Layout {
            fields,
            events: Vec::new(),
            marks: Vec::new(),
            end: 2 * fields,
        };
        while (1..=8).contains(&fields) {
            let at = layout.end;
            let behind = match log.get(at) {
                Some(0x02) => at + 1 + 4 * fields,
                Some(0x03) => at + 2 + 4 * fields,
                Some(0x04) => at + 1,
                _ => break,
            };
            if behind > log.len() {
                break;
            }
            match log[at] {
                0x04 => layout.marks.push(at),
                _ => layout.events.push(at),
            }
            layout.end = behind;
        }
        layout
    }

    /// Where the values of the event at this place begin.
    pub fn values(log: &[u8], at: usize) -> usize {
        at + usize::from(log[at]) - 1
    }

    /// Does the event at this place have the field?
    pub fn has(log: &[u8], at: usize, field: usize) -> bool {
        log[at] == 0x02 || log[at + 1] >> field & 1 == 1
    }
}
