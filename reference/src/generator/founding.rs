//! Writes the tables of a house: lawful ones, and what makes them unlawful.

use std::collections::BTreeSet;

use super::random::Random;
use super::scribe::Scribe;
use crate::console::Name;
use crate::draft::Draft;
use crate::kinds::{Kind, SHAPES};
use crate::refusal::Refusal;
use crate::tables::{Assignment, List, Number, Permission, Relation, RolePair};

/// How many items the lists of a house get.
#[derive(Clone, Copy, Debug, PartialEq, Eq)]
pub enum Size {
    Small,
    Medium,
    Large,
    /// Some lists get more than they can have.
    Overfull,
}

impl Size {
    pub fn random(random: &mut Random) -> Size {
        match random.below(20) {
            0..=5 => Size::Small,
            6..=13 => Size::Medium,
            14..=16 => Size::Large,
            _ => Size::Overfull,
        }
    }

    fn count(self, list: List, random: &mut Random) -> usize {
        let (least, most) = match self {
            Size::Small => small(list),
            Size::Medium => medium(list),
            Size::Large => large(list),
            Size::Overfull if random.percent(40) => (list.limit() + 3, list.limit() + 8),
            Size::Overfull => roomy(list),
        };
        random.between(least, most)
    }
}

fn small(list: List) -> (usize, usize) {
    match list {
        List::Users | List::Roles | List::RolePairs | List::Permissions => (1, 5),
        List::Conditions => (0, 18),
        List::EnvironmentRoles | List::Entries => (0, 4),
        List::Devices | List::Operations | List::DeviceRoles => (1, 3),
        List::Units => (1, 2),
    }
}

fn medium(list: List) -> (usize, usize) {
    match list {
        List::Users | List::Roles => (3, 9),
        List::Devices | List::Operations => (2, 5),
        List::Permissions => (4, 16),
        List::DeviceRoles => (2, 7),
        List::Conditions => (10, 26),
        List::EnvironmentRoles => (2, 5),
        List::Entries => (3, 12),
        List::RolePairs => (5, 20),
        List::Units => (2, 5),
    }
}

/// Enough devices, roles and so on for more permissions and role pairs than there may be.
fn roomy(list: List) -> (usize, usize) {
    match list {
        List::Roles | List::Devices | List::Operations => (9, 12),
        List::EnvironmentRoles => (5, 9),
        _ => medium(list),
    }
}

fn large(list: List) -> (usize, usize) {
    match list {
        List::Permissions | List::RolePairs => (24, 64),
        List::Entries => (10, 64),
        List::Conditions => (17, 32),
        List::Units => (3, 16),
        _ => (8, 32),
    }
}

const PLAIN_LISTS: [List; 8] = [
    List::Users,
    List::Roles,
    List::Devices,
    List::Operations,
    List::DeviceRoles,
    List::Conditions,
    List::EnvironmentRoles,
    List::Units,
];

/// The reasons for which a draft of a text can be unlawful. The last is there more often: the
/// others hide it.
pub const UNLAWFUL: [Refusal; 7] = [
    Refusal::IllFormedDraft,
    Refusal::SeparatedRolesHeld,
    Refusal::UnitsOverlap,
    Refusal::ProhibitedPairAssigned,
    Refusal::ReachesBarredPermission,
    Refusal::ReachesBarredPermission,
    Refusal::ReachesBarredPermission,
];

/// Whole tables.
impl Scribe {
    /// Writes tables that can open, but for what noise does to them.
    pub fn found(&mut self, size: Size) {
        for list in PLAIN_LISTS {
            for _ in 0..size.count(list, &mut self.random) {
                self.declare(list);
            }
        }
        for _ in 0..size.count(List::Permissions, &mut self.random) {
            self.add_permission();
        }
        for _ in 0..size.count(List::RolePairs, &mut self.random) {
            self.add_role_pair();
        }
        for _ in 0..size.count(List::Entries, &mut self.random) {
            self.add_entry();
        }
        if self.random.percent(20) {
            self.repeat_name_of_role_pair();
        }
        self.relate();
    }

    fn relate(&mut self) {
        let count = |scribe: &Scribe, list: List| scribe.console().draft().count(list);
        self.scatter(Relation::StaticSeparation, count(self, List::Roles) / 3);
        self.scatter(Relation::DynamicSeparation, count(self, List::Roles) / 2);
        self.scatter(Relation::Bars, count(self, List::Permissions) / 2);
        self.scatter(Relation::ProhibitedPairs, count(self, List::RolePairs) / 4);
        self.spread(Relation::UserRoles, 4);
        self.spread(Relation::PermissionAssignment, 2);
        self.spread(Relation::RolePairAssignment, 2);
        self.share_out(Assignment::RolePairs);
        self.share_out(Assignment::Permissions);
        for unit in 0..count(self, List::Units) {
            for _ in 0..self.random.between(1, 3) {
                if let Some(user) = self.random.number(count(self, List::Users)) {
                    self.put(Relation::Administrators, user, unit);
                }
            }
        }
    }

    /// Puts up to so many random pairs in a relation.
    fn scatter(&mut self, relation: Relation, most: usize) {
        for _ in 0..self.random.between(0, most) {
            self.put_any_lawful(relation);
        }
    }

    /// Gives every left half of a relation up to so many right halves.
    fn spread(&mut self, relation: Relation, most: usize) {
        let (left_list, right_list) = relation.halves();
        for left in 0..self.console().draft().count(left_list) {
            for _ in 0..self.random.between(0, most) {
                if let Some(right) = self.random.number(self.console().draft().count(right_list)) {
                    self.put_lawful(relation, left, right);
                }
            }
        }
    }

    /// Shares the role pairs or permissions out among the units, and gives each unit device roles.
    fn share_out(&mut self, assignment: Assignment) {
        let (left_list, right_list) = assignment.relation().halves();
        let units = self.console().draft().count(List::Units);
        for left in 0..self.console().draft().count(left_list) {
            match self.random.number(units) {
                Some(unit) if self.random.percent(85) => {
                    self.put(assignment.task_left(), unit, left)
                }
                _ => {}
            }
        }
        for unit in 0..units {
            for device_role in 0..self.console().draft().count(right_list) {
                if self.random.percent(70) {
                    self.put(assignment.task_right(), unit, device_role);
                }
            }
        }
        for _ in 0..self.random.below(3) {
            self.put_any_lawful(assignment.task_left());
        }
    }
}

/// Single table records.
impl Scribe {
    /// Any table record that leaves the draft as lawful as it was.
    pub fn table_record(&mut self) {
        match self.random.below(10) {
            0..=3 => {
                let list = self.random.choose(&PLAIN_LISTS);
                self.declare(list);
            }
            4 => self.add_permission(),
            5 => self.add_role_pair(),
            6 if self.random.percent(20) => self.repeat_name_of_role_pair(),
            6 => self.add_entry(),
            _ => {
                let relation = self.random.choose(&Relation::ALL);
                self.put_any_lawful(relation);
            }
        }
    }

    fn declare(&mut self, list: List) {
        let name = self.name_to_declare(list);
        self.write(record_name(Kind::Declare(list)), &[name]);
    }

    fn is_full(&self, list: List) -> bool {
        self.console().draft().count(list) >= list.limit()
    }

    /// The name, at times another one that is not declared when the list to be added to is full.
    fn or_undeclared(&mut self, name: Name, to_add_to: List) -> Name {
        if self.is_full(to_add_to) && self.random.percent(20) {
            b"nobody".to_vec()
        } else {
            name
        }
    }

    /// A new name, at times one that is taken; more often so when the list is full.
    fn name_to_declare(&mut self, list: List) -> Name {
        let taken = if self.is_full(list) { 30 } else { 1 };
        if self.random.percent(taken) {
            self.any_name(list)
        } else {
            self.fresh_name(list)
        }
    }

    /// Adds a permission, mostly a new one; less often so when the list is full.
    fn add_permission(&mut self) {
        let repeats = if self.is_full(List::Permissions) { 40 } else { 1 };
        let repeated = self.random.percent(repeats);
        let (random, console) = self.random_and_console();
        let draft = console.draft();
        let mut permission = random_permission(random, draft);
        for _ in 0..6 {
            let is_declared = permission.is_some_and(|found| draft.permissions.contains(&found));
            if is_declared != repeated {
                permission = random_permission(random, draft);
            }
        }
        if let Some(Permission { device, operation }) = permission {
            let name = self.name(List::Operations, operation);
            let operation = self.or_undeclared(name, List::Permissions);
            self.write("P", &[self.name(List::Devices, device), operation]);
        }
    }

    /// Adds a role pair with new content, if a few tries find one.
    fn add_role_pair(&mut self) {
        for _ in 0..8 {
            let (random, console) = self.random_and_console();
            let Some(role_pair) = random_role_pair(random, console.draft()) else {
                return;
            };
            if !console.draft().role_pairs.contains(&role_pair) {
                let name = self.name_to_declare(List::RolePairs);
                self.write_role_pair(name, &role_pair);
                return;
            }
        }
    }

    /// Declares a role pair under a name that is taken, with more that is wrong at times.
    fn repeat_name_of_role_pair(&mut self) {
        let name = self.any_name(List::RolePairs);
        let any_role = self.any_name(List::Roles);
        let role = self.random.choose(&[any_role, b"nobody".to_vec(), b"no-role".to_vec()]);
        self.write("RP", &[name, role]);
    }

    fn write_role_pair(&mut self, name: Name, role_pair: &RolePair) {
        let role = self.or_undeclared(self.name(List::Roles, role_pair.role), List::RolePairs);
        let mut values = vec![name, role];
        for &number in &role_pair.environment_roles {
            values.push(self.name(List::EnvironmentRoles, number));
        }
        if values.len() > 2 && self.random.percent(3) {
            let wanted = self.random.choose(&[3, 4, 38, 39, 40]);
            repeat_last(&mut values, wanted);
        }
        self.write("RP", &values);
    }

    fn add_entry(&mut self) {
        let (random, console) = self.random_and_console();
        let draft = console.draft();
        let Some(environment_role) = random.number(draft.count(List::EnvironmentRoles)) else {
            return;
        };
        let conditions = random_conditions(random, draft.count(List::Conditions));
        let environment_role =
            self.or_undeclared(self.name(List::EnvironmentRoles, environment_role), List::Entries);
        let mut values = vec![environment_role];
        for number in conditions {
            values.push(self.name(List::Conditions, number));
        }
        if values.len() > 1 && self.random.percent(3) {
            let wanted = self.random.choose(&[3, 4, 38, 39, 40]);
            repeat_last(&mut values, wanted);
        }
        self.write("EA", &values);
    }

    /// Writes the record that puts this pair in this relation.
    fn put(&mut self, relation: Relation, left: Number, right: Number) {
        let (left_list, right_list) = relation.halves();
        let mut values = self.names_of(left_list, left);
        values.extend(self.names_of(right_list, right));
        self.write(record_name(Kind::Put(relation)), &values);
    }

    /// The names by which a record names this thing: two for a permission.
    fn names_of(&self, list: List, number: Number) -> Vec<Name> {
        match (list, self.console().draft().permissions.get(number)) {
            (List::Permissions, Some(&Permission { device, operation })) => {
                vec![self.name(List::Devices, device), self.name(List::Operations, operation)]
            }
            _ => vec![self.name(list, number)],
        }
    }

    fn put_any_lawful(&mut self, relation: Relation) {
        let (left_list, right_list) = relation.halves();
        let (random, console) = self.random_and_console();
        let left = random.number(console.draft().count(left_list));
        let right = random.number(console.draft().count(right_list));
        if let (Some(left), Some(right)) = (left, right) {
            self.put_lawful(relation, left, right);
        }
    }

    /// Puts the pair in the relation unless a lawful draft would become unlawful by it.
    fn put_lawful(&mut self, relation: Relation, left: Number, right: Number) {
        let mut trial = self.console().draft().clone();
        let tried = trial.put(relation, left, right);
        if tried.is_ok() && (trial.check().is_ok() || self.console().draft().check().is_err()) {
            self.put(relation, left, right);
        }
    }
}

/// What makes a draft unlawful.
impl Scribe {
    /// Writes table records for which opening the draft is refused with this reason, or with
    /// one of a lower number. Does nothing where the draft lacks what that takes.
    pub fn make_unlawful(&mut self, reason: Refusal) {
        match reason {
            Refusal::IllFormedDraft => self.repeat_role_pair(),
            Refusal::SeparatedRolesHeld => self.separate_held_roles(),
            Refusal::UnitsOverlap => self.let_units_overlap(),
            Refusal::ProhibitedPairAssigned => self.prohibit_assigned_pair(),
            _ => self.bar_reached_permission(),
        }
    }

    fn repeat_role_pair(&mut self) {
        let (random, console) = self.random_and_console();
        if let Some(role_pair) = random.one_of(&console.draft().role_pairs) {
            let name = self.fresh_name(List::RolePairs);
            self.write_role_pair(name, &role_pair);
        }
    }

    fn separate_held_roles(&mut self) {
        let Some((user, role)) = self.any_pair(Relation::UserRoles) else {
            return;
        };
        let held: Vec<Number> = self
            .console()
            .draft()
            .pairs(Relation::UserRoles)
            .filter(|&(holder, _)| holder == user)
            .map(|(_, held)| held)
            .collect();
        let other = self.random.choose(&held);
        self.put(Relation::StaticSeparation, role, other);
    }

    /// Gives a pair in the task of one unit to another unit as well.
    fn let_units_overlap(&mut self) {
        let assignment = self.random.choose(&Assignment::BOTH);
        let Some((unit, left)) = self.any_pair(assignment.task_left()) else {
            return;
        };
        let Some((_, device_role)) = self.any_pair(assignment.task_right()) else {
            return;
        };
        let Some(other) = self.random.number(self.console().draft().count(List::Units)) else {
            return;
        };
        self.put(assignment.task_right(), unit, device_role);
        self.put(assignment.task_left(), other, left);
        self.put(assignment.task_right(), other, device_role);
    }

    fn prohibit_assigned_pair(&mut self) {
        let (from, to) = self.random.choose(&[
            (Relation::RolePairAssignment, Relation::ProhibitedPairs),
            (Relation::ProhibitedPairs, Relation::RolePairAssignment),
        ]);
        if let Some((role_pair, device_role)) = self.any_pair(from) {
            self.put(to, role_pair, device_role);
        }
    }

    fn bar_reached_permission(&mut self) {
        let Some((role_pair, device_role)) = self.any_pair(Relation::RolePairAssignment) else {
            return;
        };
        let Some((permission, _)) = self.any_pair(Relation::PermissionAssignment) else {
            return;
        };
        let role = self.console().draft().role_pairs[role_pair].role;
        self.put(Relation::PermissionAssignment, permission, device_role);
        self.put(Relation::Bars, permission, role);
    }

    fn any_pair(&mut self, relation: Relation) -> Option<(Number, Number)> {
        let pairs: Vec<(Number, Number)> = self.console().draft().pairs(relation).collect();
        self.random.one_of(&pairs)
    }
}

fn random_permission(random: &mut Random, draft: &Draft) -> Option<Permission> {
    let device = random.number(draft.count(List::Devices))?;
    let operation = random.number(draft.count(List::Operations))?;
    Some(Permission { device, operation })
}

fn random_role_pair(random: &mut Random, draft: &Draft) -> Option<RolePair> {
    let role = random.number(draft.count(List::Roles))?;
    let environment_roles = random_set(random, draft.count(List::EnvironmentRoles), 2);
    Some(RolePair { role, environment_roles })
}

/// A set of up to so many numbers below the count, small ones more often.
fn random_set(random: &mut Random, count: usize, most: usize) -> BTreeSet<Number> {
    let wanted = random.between(0, most).min(random.between(0, most));
    (0..wanted).filter_map(|_| random.number(count)).collect()
}

/// A set of conditions, often of the week clock only.
fn random_conditions(random: &mut Random, count: usize) -> BTreeSet<Number> {
    let on_clock = count.saturating_sub(16);
    if on_clock > 0 && random.percent(40) {
        random_set(random, on_clock, 3).into_iter().map(|number| number + 16).collect()
    } else {
        random_set(random, count, 3)
    }
}

/// Repeats the last value until there are so many.
fn repeat_last(values: &mut Vec<Name>, wanted: usize) {
    if let Some(last) = values.last().cloned() {
        while values.len() < wanted {
            values.push(last.clone());
        }
    }
}

/// The name of the records of this kind.
fn record_name(kind: Kind) -> &'static str {
    let shape = SHAPES.iter().find(|shape| shape.kind == kind);
    shape.map_or("", |shape| shape.name)
}
