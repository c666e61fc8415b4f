//! A collection after reading: the declared counts and the records, each number in its own type.

use crate::numbers::*;

/// The five numbers of frame 01.
#[derive(Clone, Copy, Debug, PartialEq, Eq)]
pub struct Counts {
    pub names: u8,
    pub roles: u8,
    pub individuals: u8,
    pub states: u8,
    pub start: State,
}

#[derive(Clone, Copy, Debug, PartialEq, Eq, Hash, PartialOrd, Ord)]
pub enum Step {
    Role { from: State, role: Role, to: State },
    Test { from: State, name: Concept, to: State },
}

/// A name typed of an individual.
#[derive(Clone, Copy, Debug, PartialEq, Eq)]
pub struct ConceptFact {
    pub name: Concept,
    pub who: Individual,
    pub deed: Deed,
}

/// A role typed of two individuals, which may be one.
#[derive(Clone, Copy, Debug, PartialEq, Eq)]
pub struct RoleFact {
    /// Always a forward one: facts are typed on role names.
    pub role: Role,
    pub first: Individual,
    pub second: Individual,
    pub deed: Deed,
}

#[derive(Clone, Debug, PartialEq, Eq)]
pub struct Collection {
    pub counts: Counts,
    pub concept_rules: Vec<(Concept, Concept)>,
    pub concept_exclusions: Vec<(Concept, Concept)>,
    pub role_rules: Vec<(Role, Role)>,
    pub role_exclusions: Vec<(Role, Role)>,
    pub concept_facts: Vec<ConceptFact>,
    pub role_facts: Vec<RoleFact>,
    pub steps: Vec<Step>,
    pub finals: Vec<State>,
}

impl Counts {
    /// None is number 4: a count outside its range, or the start state not below the states.
    pub fn new(names: u16, roles: u16, individuals: u16, states: u16, start: u16) -> Option<Counts> {
        let in_range = names <= MOST_NAMES
            && roles <= MOST_ROLES
            && individuals <= MOST_INDIVIDUALS
            && (1..=MOST_STATES).contains(&states)
            && start < states;
        in_range.then_some(Counts {
            names: names as u8,
            roles: roles as u8,
            individuals: individuals as u8,
            states: states as u8,
            start: State(start as u8),
        })
    }

    pub fn name(&self, number: u16) -> Option<Concept> {
        (number < u16::from(self.names)).then_some(Concept(number as u8))
    }

    pub fn role_name(&self, number: u16) -> Option<Role> {
        (number < u16::from(self.roles)).then(|| Role::forward(number as u8))
    }

    pub fn signed_role(&self, number: u16) -> Option<Role> {
        (number < 2 * u16::from(self.roles)).then_some(Role(number as u8))
    }

    /// A basic concept is valid when its name or role is declared.
    pub fn basic_concept(&self, number: u16) -> Option<Concept> {
        match number.checked_sub(u16::from(NEIGHBOUR_BASE)) {
            None => self.name(number),
            Some(role) => self.signed_role(role).map(Role::neighbour),
        }
    }

    pub fn individual(&self, number: u16) -> Option<Individual> {
        (number < u16::from(self.individuals)).then_some(Individual(number as u8))
    }

    pub fn state(&self, number: u16) -> Option<State> {
        (number < u16::from(self.states)).then_some(State(number as u8))
    }

    /// "Concepts", as a count (docs/RULES.md, section 2).
    pub fn concepts(&self) -> u16 {
        u16::from(self.names) + 2 * u16::from(self.roles)
    }

    /// The rounds needed are never more; at most 126,976.
    pub fn most_rounds(&self) -> u32 {
        let states = u32::from(self.states);
        u32::from(self.concepts()) * states * (states - 1)
    }

    pub fn all_roles(&self) -> impl Iterator<Item = Role> {
        (0..2 * self.roles).map(Role)
    }

    pub fn all_concepts(&self) -> impl Iterator<Item = Concept> {
        let names = (0..self.names).map(Concept);
        names.chain(self.all_roles().map(Role::neighbour))
    }

    pub fn all_individuals(&self) -> impl Iterator<Item = Individual> {
        (0..self.individuals).map(Individual)
    }

    pub fn all_states(&self) -> impl Iterator<Item = State> {
        (0..self.states).map(State)
    }
}

impl Collection {
    pub fn empty(counts: Counts) -> Collection {
        Collection {
            counts,
            concept_rules: Vec::new(),
            concept_exclusions: Vec::new(),
            role_rules: Vec::new(),
            role_exclusions: Vec::new(),
            concept_facts: Vec::new(),
            role_facts: Vec::new(),
            steps: Vec::new(),
            finals: Vec::new(),
        }
    }

    /// The deed numbers of all facts, those of names first.
    pub fn deeds(&self) -> impl Iterator<Item = Deed> + '_ {
        let names = self.concept_facts.iter().map(|fact| fact.deed);
        names.chain(self.role_facts.iter().map(|fact| fact.deed))
    }

    pub fn notes_a_deed(&self) -> bool {
        self.deeds().any(|deed| deed != Deed::NONE_NOTED)
    }
}
