//! Programs whose listed pairs form chains, so that it matters what a chain beats.

use super::accepted::{case, contest, fact, some_pairs};
use super::description::RuleText;
use super::random::Random;
use super::Case;

type Pairs = Vec<(u8, u8)>;

/// A way of listing pairs, and the rules that it suits.
struct Family {
    name: &'static str,
    dispute: fn(&mut Random) -> Dispute,
    /// The least and the greatest number of bystanders, if there is room for them.
    bystanders: (usize, usize),
    list: fn(&mut Random, &Defeasible) -> Pairs,
}

/// Rules for and against some literals.
struct Dispute {
    atoms: usize,
    rules: Vec<RuleText>,
    /// The literals of each side.
    sides: [Vec<u8>; 2],
}

/// The numbers of the defeasible rules, ascending.
struct Defeasible {
    all: Vec<u8>,
    /// Rules that the dispute doesn't depend on.
    bystanders: Vec<u8>,
    /// Rules with a head of each side; no rule of a dispute has to be on a side.
    sides: [Vec<u8>; 2],
}

const FAMILIES: [Family; 11] = [
    Family {
        name: "many pairs",
        dispute: |random| Dispute::over_claims(random, 3, 8),
        bystanders: (0, 1),
        list: many,
    },
    Family {
        name: "pairs both ways",
        dispute: |random| Dispute::over_claims(random, 3, 8),
        bystanders: (0, 1),
        list: both_ways,
    },
    Family {
        name: "closed chain of 2",
        dispute: |random| Dispute::over_claims(random, 3, 7),
        bystanders: (0, 0),
        list: |random, rules| closed_among(random, rules, 2),
    },
    Family {
        name: "closed chain of 3",
        dispute: |random| Dispute::over_claims(random, 4, 8),
        bystanders: (0, 0),
        list: |random, rules| closed_among(random, rules, 3),
    },
    Family {
        name: "closed chain of all",
        dispute: |random| Dispute::over_claims(random, 4, 8),
        bystanders: (0, 1),
        list: |random, rules| closed(&rules.shuffled(random)),
    },
    Family {
        name: "rule that beats itself",
        dispute: |random| Dispute::over_claims(random, 3, 8),
        bystanders: (1, 2),
        list: beating_itself,
    },
    Family {
        name: "chain in table order",
        dispute: |random| Dispute::over_claims(random, 4, 8),
        bystanders: (0, 0),
        list: |_, rules| line(&rules.all),
    },
    Family {
        name: "chain reversed",
        dispute: |random| Dispute::over_claims(random, 4, 8),
        bystanders: (0, 0),
        list: |_, rules| line(&rules.reversed()),
    },
    Family {
        name: "chain shuffled",
        dispute: |random| Dispute::over_claims(random, 4, 8),
        bystanders: (0, 0),
        list: |random, rules| line(&rules.shuffled(random)),
    },
    Family {
        name: "chains through bystanders",
        dispute: |random| Dispute::over_claims(random, 3, 6),
        bystanders: (1, 5),
        list: through_bystanders,
    },
    Family {
        name: "bystanders between the sides",
        dispute: |random| Dispute::contested(random, 5),
        bystanders: (1, 3),
        list: between_the_sides,
    },
];

/// Sixteen defeasible rules, as many as there can be, in one chain.
const OF_SIXTEEN: [Family; 4] = [
    Family {
        name: "closed chain of 16",
        dispute: |random| Dispute::over_claims(random, 12, 16),
        bystanders: (16, 16),
        list: |random, rules| closed(&rules.shuffled(random)),
    },
    Family {
        name: "15 pairs in table order",
        dispute: |random| Dispute::over_claims(random, 12, 16),
        bystanders: (16, 16),
        list: |_, rules| line(&rules.all),
    },
    Family {
        name: "15 pairs reversed",
        dispute: |random| Dispute::over_claims(random, 12, 16),
        bystanders: (16, 16),
        list: |_, rules| line(&rules.reversed()),
    },
    Family {
        name: "15 pairs shuffled",
        dispute: |random| Dispute::over_claims(random, 12, 16),
        bystanders: (16, 16),
        list: |random, rules| line(&rules.shuffled(random)),
    },
];

/// `count` sound images of small programs, all ways of listing pairs in turn.
pub fn chained(seed: u64, count: usize) -> impl Iterator<Item = Case> {
    in_turn(seed, count, &FAMILIES)
}

/// The same with sixteen defeasible rules in one chain.
pub fn chained_sixteen(seed: u64, count: usize) -> impl Iterator<Item = Case> {
    in_turn(seed, count, &OF_SIXTEEN)
}

fn in_turn(seed: u64, count: usize, families: &'static [Family]) -> impl Iterator<Item = Case> {
    let mut random = Random::seeded(seed);
    (0..count).map(move |index| of_family(&mut random, &families[index % families.len()]))
}

fn of_family(random: &mut Random, family: &Family) -> Case {
    let dispute = (family.dispute)(random);
    let room = 16 - dispute.rules.iter().filter(|r| r.defeasible).count();
    let wanted = random.between(family.bystanders.0, family.bystanders.1);
    let bystanders = dispute.bystanders(random, wanted.min(room));
    let atoms = dispute.atoms + 1 + bystanders.len();
    let mut rules = dispute.rules;
    rules.extend(bystanders.iter().cloned());
    random.shuffle(&mut rules);
    let numbers = |belongs: &dyn Fn(&RuleText) -> bool| -> Vec<u8> {
        (0..rules.len())
            .filter(|&number| rules[number].defeasible && belongs(&rules[number]))
            .map(|number| number as u8)
            .collect()
    };
    let on_side =
        |side: &[u8], rule: &RuleText| side.contains(&rule.head) && !bystanders.contains(rule);
    let [one, other] = &dispute.sides;
    let defeasible = Defeasible {
        all: numbers(&|_| true),
        bystanders: numbers(&|rule| bystanders.contains(rule)),
        sides: [
            numbers(&|rule| on_side(one, rule)),
            numbers(&|rule| on_side(other, rule)),
        ],
    };
    let mut pairs = (family.list)(random, &defeasible);
    pairs.sort_unstable();
    pairs.dedup();
    case(family.name, atoms, rules, pairs, (0, 0))
}

impl Dispute {
    /// A fact, grounds that rest on it, and claims for and against a few literals that rest on
    /// these. Arguments for opposite claims often share a ground, and claims are raised against
    /// grounds, too.
    fn over_claims(random: &mut Random, fewest: usize, most: usize) -> Dispute {
        let count = random.between(fewest, most);
        let grounds = random.between(1 + count / 5, count.div_ceil(3));
        let claimed = random.between(1, 1 + count / 5);
        let atoms = 1 + grounds + claimed;
        let literals: Vec<u8> = (0..atoms)
            .map(|atom| (2 * atom + random.below(2)) as u8)
            .collect();
        let mut rules = vec![fact(literals[0])];
        for &ground in &literals[1..=grounds] {
            rules.push(defeasible(ground, vec![literals[0]]));
        }
        while rules.len() <= count {
            let head = if random.chance(80) {
                random.pick(&literals[grounds + 1..]) ^ random.below(2) as u8
            } else {
                random.pick(&literals[1..=grounds]) ^ 1
            };
            let mut others = literals.clone();
            others.retain(|other| other / 2 != head / 2);
            let length = random.between(1, 2);
            let rule = defeasible(head, random.sample(&others, length));
            if !rules.contains(&rule) {
                rules.push(rule);
            }
        }
        if claimed > 1 && random.chance(50) {
            let two = random.sample(&literals[grounds + 1..], 2);
            rules.push(RuleText {
                defeasible: false,
                head: two[0] ^ 1,
                body: vec![two[1]],
            });
        }
        let against = literals.iter().map(|literal| literal ^ 1).collect();
        Dispute {
            atoms,
            rules,
            sides: [literals, against],
        }
    }

    /// One atom with many arguments on both sides.
    fn contested(random: &mut Random, most_per_side: usize) -> Dispute {
        let contest = contest(random, most_per_side);
        Dispute {
            atoms: contest.atoms,
            rules: contest.rules,
            sides: contest.sides,
        }
    }

    /// Rules that can't be applied, whatever their head, and rules that can but have a head of no
    /// interest to others. Both link chains as any rule does.
    fn bystanders(&self, random: &mut Random, count: usize) -> Vec<RuleText> {
        let disputed: Vec<u8> = (0..2 * self.atoms as u8).collect();
        // Just after the disputed atoms is one that no rule has for its head.
        let out_of_reach = 2 * self.atoms as u8;
        (1..)
            .zip(random.sample(&disputed, count))
            .map(|(turn, head)| {
                if random.chance(30) {
                    defeasible(out_of_reach + 2 * turn, vec![self.rules[0].head])
                } else {
                    defeasible(head, vec![out_of_reach])
                }
            })
            .collect()
    }
}

fn defeasible(head: u8, body: Vec<u8>) -> RuleText {
    RuleText {
        defeasible: true,
        head,
        body,
    }
}

impl Defeasible {
    fn reversed(&self) -> Vec<u8> {
        self.all.iter().rev().copied().collect()
    }

    fn shuffled(&self, random: &mut Random) -> Vec<u8> {
        let mut all = self.all.clone();
        random.shuffle(&mut all);
        all
    }

    fn disputants(&self) -> Vec<u8> {
        let mut disputants = self.all.clone();
        disputants.retain(|rule| !self.bystanders.contains(rule));
        disputants
    }
}

/// Each rule beats the next.
fn line(rules: &[u8]) -> Pairs {
    rules.windows(2).map(|two| (two[0], two[1])).collect()
}

/// Each rule beats the next, and the last the first.
fn closed(rules: &[u8]) -> Pairs {
    let mut pairs = line(rules);
    if let [first, .., last] = rules {
        pairs.push((*last, *first));
    }
    pairs
}

fn many(random: &mut Random, rules: &Defeasible) -> Pairs {
    let percent = random.pick(&[15, 25, 40, 60]);
    some_pairs(random, &rules.all, percent)
}

/// Most of the listed pairs also the other way round.
fn both_ways(random: &mut Random, rules: &Defeasible) -> Pairs {
    let percent = random.pick(&[10, 20]);
    let mut pairs = some_pairs(random, &rules.all, percent);
    for (first, second) in pairs.clone() {
        if random.chance(60) {
            pairs.push((second, first));
        }
    }
    pairs
}

/// A closed chain of some of the rules, and a few more pairs.
fn closed_among(random: &mut Random, rules: &Defeasible, length: usize) -> Pairs {
    let mut members = rules.shuffled(random);
    members.truncate(length);
    let mut pairs = closed(&members);
    let percent = random.pick(&[0, 10, 20]);
    pairs.extend(some_pairs(random, &rules.all, percent));
    pairs
}

/// A closed chain of one disputant with bystanders only, and a chain of the other disputants.
fn beating_itself(random: &mut Random, rules: &Defeasible) -> Pairs {
    // The grounds, which arguments share, are on the first side.
    let one = random.pick(&rules.sides[0]);
    let mut pairs = closed(&[&rules.bystanders[..], &[one]].concat());
    let mut others = rules.disputants();
    others.retain(|&other| other != one);
    random.shuffle(&mut others);
    pairs.extend(line(&others));
    pairs
}

/// Chains from one disputant to another with only bystanders between them.
fn through_bystanders(random: &mut Random, rules: &Defeasible) -> Pairs {
    let disputants = rules.disputants();
    let percent = random.pick(&[0, 10]);
    let mut pairs = some_pairs(random, &disputants, percent);
    for _ in 0..random.between(1, 4) {
        let mut chain = random.sample(&disputants, 2);
        random.shuffle(&mut chain);
        let count = random.between(1, rules.bystanders.len());
        let mut between = random.sample(&rules.bystanders, count);
        random.shuffle(&mut between);
        chain.splice(1..1, between);
        pairs.extend(line(&chain));
    }
    pairs
}

/// Each bystander is beaten by some rules of a side, mostly the same one, and beats some of the
/// other.
fn between_the_sides(random: &mut Random, rules: &Defeasible) -> Pairs {
    let mut pairs = Vec::new();
    for &bystander in &rules.bystanders {
        let stronger = usize::from(random.chance(15));
        let percent = random.pick(&[20, 40, 60]);
        for &winner in &rules.sides[stronger] {
            if random.chance(percent) {
                pairs.push((winner, bystander));
            }
        }
        for &loser in &rules.sides[1 - stronger] {
            if random.chance(percent) {
                pairs.push((bystander, loser));
            }
        }
    }
    pairs
}
