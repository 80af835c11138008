//! Images with faults put in on purpose.
//!
//! An image starts out sound. Each fault is put into a rule, a pair, the directory or the header
//! by a routine that can't bring in anything that document 01 checks earlier than the fault
//! itself, so the first of the planted faults is the one to be reported.

use super::description::{Description, RuleText};
use super::random::Random;
use super::scenario::{can_share_a_place, in_pair, in_rule, Arrangement, Scenario};
use super::soundrules::RuleSupply;
use super::{first_fault, spoil, Case, Verdict};

/// All faults of one image. A slot is a rule or pair that gets faults; slots are listed in the
/// order in which they will stand, each with its causes ascending.
#[derive(Clone, Debug, Default)]
struct Plan {
    length: bool,
    header: bool,
    directory: bool,
    rule_slots: Vec<Vec<u32>>,
    /// The last rule slot repeats the bytes of the one before it.
    twin: bool,
    last_part: bool,
    pair_slots: Vec<Vec<u32>>,
    contradiction: bool,
}

/// An image for a scenario.
pub fn staged(random: &mut Random, scenario: Scenario) -> Case {
    let plan = plan_of(scenario);
    let mut case = carry_out(random, &plan);
    case.scenario = Some(scenario);
    case
}

/// An image with any number of faults, none included.
pub fn several(random: &mut Random) -> Case {
    let mut plan = Plan {
        length: random.chance(4),
        header: random.chance(6),
        directory: random.chance(10),
        last_part: random.chance(25),
        contradiction: random.chance(25),
        ..Plan::default()
    };
    for _ in 0..random.below(4) {
        let causes = random_rule_causes(random);
        let second_17th = causes.contains(&9) && plan.rule_slots.iter().any(|s| s.contains(&9));
        if !second_17th {
            plan.rule_slots.push(causes);
        }
    }
    for _ in 0..random.below(4) {
        let causes = random.pick(&[&[12][..], &[13], &[12, 13]]);
        plan.pair_slots.push(causes.to_vec());
    }
    carry_out(random, &plan)
}

fn random_rule_causes(random: &mut Random) -> Vec<u32> {
    let first = random.between(4, 10) as u32;
    let second = random.between(4, 10) as u32;
    if can_share_a_place(first, second) {
        vec![first, second]
    } else {
        vec![first]
    }
}

fn plan_of(scenario: Scenario) -> Plan {
    let mut plan = Plan::default();
    let causes: Vec<u32> = [Some(scenario.first), scenario.second]
        .into_iter()
        .flatten()
        .collect();
    for &cause in &causes {
        match cause {
            1 => plan.length = true,
            2 => plan.header = true,
            3 => plan.directory = true,
            11 => plan.last_part = true,
            14 => plan.contradiction = true,
            _ => {}
        }
    }
    let slots = |belongs: fn(u32) -> bool| -> Vec<Vec<u32>> {
        let mut placed: Vec<u32> = causes.iter().copied().filter(|&c| belongs(c)).collect();
        match scenario.arrangement {
            Arrangement::Together if !placed.is_empty() => return vec![placed],
            Arrangement::SecondEarlier => placed.reverse(),
            _ => {}
        }
        placed.into_iter().map(|cause| vec![cause]).collect()
    };
    plan.rule_slots = slots(in_rule);
    plan.pair_slots = slots(in_pair);
    plan.twin = scenario.arrangement == Arrangement::Twin;
    plan
}

fn carry_out(random: &mut Random, plan: &Plan) -> Case {
    // A random choice can leave no room for a fault; then another one is made.
    loop {
        if let Some(case) = attempt(random, plan) {
            return case;
        }
    }
}

fn attempt(random: &mut Random, plan: &Plan) -> Option<Case> {
    let layout = Layout::choose(random, plan);
    let most_atoms = random.pick(&[12, 64]);
    let atoms = random.between(5, most_atoms);
    let mut planted: Vec<Verdict> = Vec::new();

    let (mut rules, sources) = sound_rules(random, plan, &layout, atoms)?;
    if plan.contradiction {
        planted.push((14, 0));
    }
    let mut pairs = sound_pairs(random, plan, &layout)?;

    for (slot, causes) in plan.rule_slots.iter().enumerate() {
        let number = layout.slots[slot];
        let is_twin = plan.twin && slot + 1 == plan.rule_slots.len();
        if is_twin {
            let earlier = layout.slots[slot - 1];
            rules[number] = rules[earlier].clone();
            for &cause in &plan.rule_slots[slot - 1] {
                planted.push((cause, number as u32));
            }
        } else if let Some(source) = sources[slot] {
            rules[number] = rules[source].clone();
        } else {
            rules[number] = spoil::rule(random, atoms, &rules[number], causes);
        }
        planted.extend(causes.iter().map(|&cause| (cause, number as u32)));
    }

    let places = spoil::pairs(random, &mut pairs, &plan.pair_slots, &layout.names())?;
    for (causes, &place) in plan.pair_slots.iter().zip(&places) {
        planted.extend(causes.iter().map(|&cause| (cause, place as u32)));
    }

    let mut parts = Description {
        atoms: atoms as u16,
        rules: Vec::new(),
        pairs,
    }
    .parts();
    parts.rules = rules;
    if plan.last_part {
        spoil::last_part(random, &mut parts);
        planted.push((11, 0));
    }

    let needs_rules = !plan.rule_slots.is_empty() || !plan.pair_slots.is_empty();
    let needs_more = needs_rules || plan.last_part || plan.contradiction;
    let too_short = plan.length && !needs_more && random.chance(50);
    let too_long = plan.length && !too_short;
    let wanted_length = if random.chance(40) {
        1837
    } else {
        random.between(1837, 2400)
    };
    if too_long && !plan.directory {
        spoil::grow_a_part(random, &mut parts, wanted_length);
    }
    let mut image = parts.image();
    if plan.directory {
        image = spoil::directory(random, &parts);
        planted.push((3, 0));
    }
    if plan.header {
        // A greater atom count would take away a literal out of range.
        let keep_atoms = plan.rule_slots.iter().any(|s| s.contains(&6));
        spoil::header(random, &mut image, keep_atoms);
        planted.push((2, 0));
    }
    if plan.length {
        planted.push((1, 0));
        if too_short {
            image.truncate(random.between(if plan.header { 8 } else { 0 }, 11));
        }
        while too_long && image.len() < wanted_length {
            image.push(random.byte());
        }
    } else if !(12..=1836).contains(&image.len()) {
        return None;
    }
    Some(Case {
        image,
        expected: Some(first_fault(&planted)),
        note: format!("planted {planted:?}"),
        planted,
        scenario: None,
    })
}

/// Where the slots are and which rules are defeasible.
struct Layout {
    slots: Vec<usize>,
    defeasible: Vec<bool>,
}

impl Layout {
    fn choose(random: &mut Random, plan: &Plan) -> Layout {
        let mut slots = Vec::new();
        let mut rules = 0;
        for (slot, causes) in plan.rule_slots.iter().enumerate() {
            rules += random.below(5);
            let needed = if causes.contains(&9) {
                16 + random.below(8)
            } else if causes.contains(&10) {
                2
            } else {
                0
            };
            rules = rules.max(slot + needed);
            slots.push(rules);
            rules += 1;
        }
        let most_after = random.pick(&[8, 8, 8, 8, 40]);
        rules += random.below(most_after);
        rules = rules.max(slots.len() + 8 + random.below(4));
        let defeasible = Layout::kinds(random, plan, &slots, rules);
        Layout { slots, defeasible }
    }

    /// The kind of each rule, with the 17th defeasible rule in its slot if there is to be one
    /// and otherwise no 17th.
    fn kinds(random: &mut Random, plan: &Plan, slots: &[usize], rules: usize) -> Vec<bool> {
        let mut defeasible = vec![false; rules];
        let seventeenth = plan.rule_slots.iter().position(|s| s.contains(&9));
        for (slot, causes) in plan.rule_slots.iter().enumerate() {
            let must = causes.contains(&8) || causes.contains(&9);
            let may = seventeenth.is_none_or(|seventeenth| slot > seventeenth);
            defeasible[slots[slot]] = must || may && random.chance(50);
        }
        let plain = |range: std::ops::Range<usize>| -> Vec<usize> {
            range.filter(|number| !slots.contains(number)).collect()
        };
        let in_slots = defeasible.iter().filter(|&&d| d).count();
        if let Some(seventeenth) = seventeenth {
            let earlier_slots = slots[..seventeenth]
                .iter()
                .filter(|&&s| defeasible[s])
                .count();
            for number in random.sample(&plain(0..slots[seventeenth]), 16 - earlier_slots) {
                defeasible[number] = true;
            }
            for number in plain(slots[seventeenth]..rules) {
                defeasible[number] = random.chance(30);
            }
        } else {
            let others = plain(0..rules);
            let most = others.len().min(16 - in_slots);
            let count = random.between(3.min(most), most);
            for number in random.sample(&others, count) {
                defeasible[number] = true;
            }
        }
        defeasible
    }

    /// The rules that are no slots and have the wanted kind.
    fn plain(&self, defeasible: bool) -> Vec<usize> {
        (0..self.defeasible.len())
            .filter(|n| !self.slots.contains(n) && self.defeasible[*n] == defeasible)
            .collect()
    }

    fn names(&self) -> spoil::RuleNames {
        let numbers = |list: Vec<usize>| list.into_iter().map(|n| n as u8).collect();
        spoil::RuleNames {
            defeasible: numbers(self.plain(true)),
            strict: numbers(self.plain(false)),
            count: self.defeasible.len(),
        }
    }
}

type RuleBytes = Vec<Vec<u8>>;

/// Different sound rules for all places, and for each slot with cause 10 the earlier rule that
/// it is to repeat.
fn sound_rules(
    random: &mut Random,
    plan: &Plan,
    layout: &Layout,
    atoms: usize,
) -> Option<(RuleBytes, Vec<Option<usize>>)> {
    let mut supply = RuleSupply::new(random, atoms);
    let mut given: Vec<Option<RuleText>> = vec![None; layout.defeasible.len()];
    if plan.contradiction {
        let strict = layout.plain(false);
        let contradiction = contradiction(random, atoms);
        if strict.len() < contradiction.len() {
            return None;
        }
        let mut places = random.sample(&strict, contradiction.len());
        random.shuffle(&mut places);
        for (place, rule) in places.into_iter().zip(contradiction) {
            supply.take(&rule);
            given[place] = Some(rule);
        }
    }
    let rules = given
        .into_iter()
        .zip(&layout.defeasible)
        .map(|(rule, &defeasible)| match rule {
            Some(rule) => rule.bytes(),
            None => supply.rule(random, defeasible).bytes(),
        })
        .collect();
    let mut sources = Vec::new();
    for (slot, causes) in plan.rule_slots.iter().enumerate() {
        let number = layout.slots[slot];
        let twin = plan.twin && slot + 1 == plan.rule_slots.len();
        if causes.contains(&10) && !twin {
            let same_kind: Vec<usize> = layout
                .plain(layout.defeasible[number])
                .into_iter()
                .filter(|&earlier| earlier < number)
                .collect();
            if same_kind.is_empty() {
                return None;
            }
            sources.push(Some(random.pick(&same_kind)));
        } else {
            sources.push(None);
        }
    }
    Some((rules, sources))
}

/// A few strict rules that derive some literal and its complement.
pub fn contradiction(random: &mut Random, atoms: usize) -> Vec<RuleText> {
    let strict = |head: u8, body: &[u8]| RuleText {
        defeasible: false,
        head,
        body: body.to_vec(),
    };
    let first = random.below(2 * atoms) as u8;
    let second = loop {
        let other = random.below(2 * atoms) as u8;
        if other / 2 != first / 2 {
            break other;
        }
    };
    let mut both = [first, second];
    both.sort_unstable();
    match random.below(4) {
        0 => vec![strict(first, &[]), strict(first ^ 1, &[])],
        1 => vec![strict(first, &[]), strict(first ^ 1, &[first])],
        2 => vec![
            strict(first, &[]),
            strict(second, &[first]),
            strict(second ^ 1, &[first]),
        ],
        _ => vec![
            strict(first, &[]),
            strict(second, &[first]),
            strict(first ^ 1, &both),
        ],
    }
}

/// Sound pairs, at least one more than there are pair slots.
fn sound_pairs(random: &mut Random, plan: &Plan, layout: &Layout) -> Option<Vec<(u8, u8)>> {
    let names = layout.plain(true);
    let mut possible = Vec::new();
    for &first in &names {
        for &second in &names {
            if first != second {
                possible.push((first as u8, second as u8));
            }
        }
    }
    let least = match plan.pair_slots.len() {
        0 => 0,
        slots => slots + 1,
    };
    let most = possible.len().min(240);
    if most < least {
        return None;
    }
    let count = if random.chance(80) {
        random.between(least, most.min(least + 10))
    } else {
        random.between(least, most)
    };
    Some(random.sample(&possible, count))
}
