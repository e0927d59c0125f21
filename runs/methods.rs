//! The input methods: tone keys, horn keys and mark rules against the tables of input_method.rs.

use crate::calls::{host, Place};
use crate::fixed::{bracketed, refused, sign, yes_no};
use crate::input_method::{get_rules, InputMethod, InputMethodRules};
use crate::letters::numbers;
use crate::oracle::{alphabet, letter, UNSOUND};
use crate::report::Run;

pub const CALLS: &[&str] = &["is_tone_key", "is_horn_key", "mark_for"];

/// Telex, VNI, and numbers that are neither.
const METHODS: [u32; 6] = [0, 1, 2, 255, 256, u32::MAX];

const RULE_KEYS: &str = "awdeou6789sfrxj12345ADWbĂ ";

fn rules() -> [InputMethodRules; 2] {
    [get_rules(InputMethod::Telex), get_rules(InputMethod::Vni)]
}

fn rules_of(rules: &[InputMethodRules; 2], method: u32) -> Result<&InputMethodRules, u32> {
    rules.get(method as usize).ok_or(UNSOUND)
}

fn is_tone_key(rules: &[InputMethodRules; 2], method: u32, key: u32) -> Result<u32, u32> {
    let rules = rules_of(rules, method)?;
    Ok(u32::from(rules.tone_keys.contains_key(&letter(key)?)))
}

/// The Rust names the two keys in bamboo.rs itself, where it looks for a uo.
fn is_horn_key(rules: &[InputMethodRules; 2], method: u32, key: u32) -> Result<u32, u32> {
    let horn = if rules_of(rules, method)?.method == InputMethod::Telex { 'w' } else { '7' };
    Ok(u32::from(letter(key)? == horn))
}

/// The letter that a rule makes, or 0.
fn mark_for(rules: &[InputMethodRules; 2], method: u32, base: u32, key: u32) -> Result<u32, u32> {
    let rules = rules_of(rules, method)?;
    let typed = String::from_iter([letter(base)?, letter(key)?]);
    let rule = rules.mark_rules.iter().find(|rule| rule.pattern == typed);
    Ok(rule.map_or(0, |rule| rule.result.chars().next().map_or(0, u32::from)))
}

pub fn compare(run: &mut Run) {
    let (rules, numbers) = (rules(), numbers(run));
    run.begin("is_tone_key, is_horn_key: every code point and numbers above, under each method and numbers that are none");
    for method in METHODS {
        for &key in &numbers {
            let input = || format!("method {method}, {}", sign(key));
            let ours = Place::of(|yes| unsafe { host::pasdrongel_is_tone_key(method, key, yes) });
            run.compare("is_tone_key", ours, Place::by(is_tone_key(&rules, method, key)), || vec![method, key], input);
            let ours = Place::of(|yes| unsafe { host::pasdrongel_is_horn_key(method, key, yes) });
            run.compare("is_horn_key", ours, Place::by(is_horn_key(&rules, method, key)), || vec![method, key], input);
        }
    }
    run.begin("mark_for: every pair of letters, under each method and numbers that are none");
    for method in METHODS {
        for &base in alphabet() {
            alphabet().iter().for_each(|&key| mark(run, &rules, method, base, key));
        }
    }
    run.begin("mark_for: a letter of the rules with every number that may be none, on either side");
    for method in [0, 1, 2] {
        for letter in "aeoud6w".chars().map(u32::from) {
            for &number in numbers.iter().step_by(7) {
                mark(run, &rules, method, letter, number);
                mark(run, &rules, method, number, letter);
            }
        }
    }
}

fn mark(run: &mut Run, rules: &[InputMethodRules; 2], method: u32, base: u32, key: u32) {
    let ours = Place::of(|mark| unsafe { host::pasdrongel_mark_for(method, base, key, mark) });
    let input = || format!("method {method}, {} {}", sign(base), sign(key));
    run.compare("mark_for", ours, Place::by(mark_for(rules, method, base, key)), || vec![method, base, key], input);
}

pub fn fixed() -> Vec<String> {
    let rules = rules();
    let mut lines = Vec::new();
    for method in METHODS {
        for key in RULE_KEYS.chars().map(u32::from).chain([0, 0x80, 0x110000]) {
            let tone = is_tone_key(&rules, method, key).map_or_else(refused, yes_no);
            lines.push(format!("is_tone_key {method} {} = {tone}", bracketed(&[key])));
            let horn = is_horn_key(&rules, method, key).map_or_else(refused, yes_no);
            lines.push(format!("is_horn_key {method} {} = {horn}", bracketed(&[key])));
        }
    }
    for method in [0, 1, 2] {
        for base in "aeoudAăb".chars().map(u32::from).chain([0x80]) {
            for key in "aeoudw6789W".chars().map(u32::from).chain([0, 0x110000]) {
                let mark = mark_for(&rules, method, base, key);
                let mark = mark.map_or_else(refused, |mark| if mark == 0 { "none".into() } else { bracketed(&[mark]) });
                lines.push(format!("mark_for {method} {} = {mark}", bracketed(&[base, key])));
            }
        }
    }
    lines
}
