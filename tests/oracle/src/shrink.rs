//! Makes a script that shows something small: lines are left out as long as it still shows it.

/// One pass that tries to leave out runs of `length` lines.
fn pass(shows: &dyn Fn(&[String]) -> bool, script: &mut Vec<String>, length: usize) -> bool {
    let mut shorter = false;
    let mut at = 0;
    while at < script.len() {
        let end = (at + length).min(script.len());
        let rest: Vec<String> = script[..at].iter().chain(&script[end..]).cloned().collect();
        if shows(&rest) {
            *script = rest;
            shorter = true;
        } else {
            at = end;
        }
    }
    shorter
}

/// The smallest script found by leaving out ever shorter runs of lines.
pub fn script(shows: &dyn Fn(&[String]) -> bool, lines: &[String]) -> Vec<String> {
    let mut script: Vec<String> = lines.iter().filter(|l| !l.starts_with(';')).cloned().collect();
    let mut length = script.len().div_ceil(2).max(1);
    loop {
        let shorter = pass(shows, &mut script, length);
        if length == 1 && !shorter {
            return script;
        }
        length = if length == 1 { 1 } else { length.div_ceil(2) };
    }
}
