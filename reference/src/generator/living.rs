//! Writes requests to a house, most of them chosen by what the house is now.

use std::collections::BTreeSet;

use super::random::Random;
use super::scribe::{Pick, Scribe};
use crate::draft::Draft;
use crate::house::{House, SESSIONS};
use crate::tables::{Assignment, Entry, List, Number, Relation, RolePair};

/// Minutes at and around which windows begin and end.
const MINUTES: [Number; 9] = [0, 1, 59, 60, 61, 5_040, 10_078, 10_079, 600];

/// What a change record names.
struct Change {
    user: Number,
    unit: Number,
    left: Number,
    device_role: Number,
}

/// A permission that a session would reach by a role pair if these conditions held.
struct ConditionalPath {
    session: Number,
    permission: Number,
    conditions: BTreeSet<Number>,
}

impl Scribe {
    /// Goes on with requests, and table records between them, until the text is so long.
    pub fn live(&mut self, length: usize) {
        while self.length() < length {
            self.live_on();
        }
    }

    fn live_on(&mut self) {
        match self.random.below(100) {
            0..=7 => self.start(),
            8..=21 => self.activate(),
            22..=26 => self.drop_role(),
            27..=28 => self.end(),
            29..=47 => self.check_access(),
            48..=54 => self.try_role_pair(),
            55..=78 => self.change(),
            79..=84 => self.sense(),
            85..=87 => self.window(),
            88..=89 => self.clock(),
            90..=96 => self.table_record(),
            97 => self.open(),
            _ => self.open_again(),
        }
    }

    pub fn open(&mut self) {
        let house_number = self.random.choose(&[0, 1, 7, 7, 8, 999_999]);
        self.write("open", &[house_number.to_string().into_bytes()]);
    }

    /// Ends the sessions that live, changes the draft, and opens the house.
    pub fn open_again(&mut self) {
        self.end_all();
        for _ in 0..self.random.below(6) {
            self.table_record();
        }
        self.open();
        self.populate();
    }

    /// Starts a few sessions and activates roles in them.
    pub fn populate(&mut self) {
        for _ in 0..self.random.between(1, 5) {
            self.start();
        }
        for _ in 0..self.random.between(2, 12) {
            self.activate();
        }
    }

    /// Ends the sessions that live, at times all but one.
    pub fn end_all(&mut self) {
        let mut living: Vec<Number> = self.console().house().sessions().keys().copied().collect();
        if self.random.percent(10) {
            living.pop();
        }
        for session in living {
            self.write("end", &[session.to_string().into_bytes()]);
        }
    }

    fn start(&mut self) {
        let (random, console) = self.random_and_console();
        let repeated = random.percent(10);
        let session = match repeated {
            true => living_session(random, console.house()),
            false => sleeping_session(random, console.house()),
        };
        let user = match repeated && random.percent(50) {
            true => None,
            false => random_holder(random, console.house().tables()),
        };
        self.request("start", &[Pick::Session(session), Pick::Of(List::Users, user)]);
    }

    fn end(&mut self) {
        let (random, console) = self.random_and_console();
        let living = living_session(random, console.house());
        self.request("end", &[Pick::Session(living)]);
    }

    fn activate(&mut self) {
        let (random, console) = self.random_and_console();
        let living = living_session(random, console.house());
        let role = living.and_then(|session| role_to_activate(random, console.house(), session));
        self.request("activate", &[Pick::Session(living), Pick::Of(List::Roles, role)]);
    }

    fn drop_role(&mut self) {
        let (random, console) = self.random_and_console();
        let living = living_session(random, console.house());
        let role = living.and_then(|session| active_role(random, console.house(), session));
        self.request("drop", &[Pick::Session(living), Pick::Of(List::Roles, role)]);
    }

    fn check_access(&mut self) {
        let (random, console) = self.random_and_console();
        let house = console.house();
        let living = living_session(random, house);
        let permission = living
            .and_then(|session| reachable_permission(random, house, session))
            .or_else(|| random.number(house.tables().permissions.len()))
            .map(|number| house.tables().permissions[number]);
        let device = permission.map(|found| found.device);
        let operation = permission.map(|found| found.operation);
        let picks = [
            Pick::Session(living),
            Pick::Of(List::Devices, device),
            Pick::Of(List::Operations, operation),
        ];
        self.request("checkAccess", &picks);
    }

    /// Sets the conditions that an assigned role pair asks for, most of them so that they hold,
    /// and checks an access that hangs on them.
    fn try_role_pair(&mut self) {
        let (random, console) = self.random_and_console();
        let Some(path) = conditional_path(random, console.house()) else {
            return;
        };
        let permission = console.house().tables().permissions[path.permission];
        let access = [
            Pick::Session(Some(path.session)),
            Pick::Of(List::Devices, Some(permission.device)),
            Pick::Of(List::Operations, Some(permission.operation)),
        ];
        let minute = random_minute(random);
        self.request("clock", &[Pick::Number(minute)]);
        for &condition in &path.conditions {
            self.set_condition(condition, minute, 85);
        }
        self.request("checkAccess", &access);
        if self.random.percent(50) {
            let later = self.random.choose(&[minute.saturating_sub(1), minute + 1, 0, 10_079]);
            self.request("clock", &[Pick::Number(later)]);
        } else if let Some(&condition) = path.conditions.first() {
            self.set_condition(condition, minute, 20);
        }
        self.request("checkAccess", &access);
    }

    /// Makes a condition hold at this minute with such a chance, else not; mostly only just.
    fn set_condition(&mut self, condition: Number, minute: Number, chance: usize) {
        let name = Pick::Of(List::Conditions, Some(condition));
        let holds = self.random.percent(chance);
        if condition < 16 {
            let flag = if holds { "true" } else { "false" };
            self.request("sense", &[name, Pick::Word(flag)]);
            return;
        }
        let before = minute.saturating_sub(1);
        let behind = minute + 1;
        let windows = match holds {
            true => [
                (minute, behind),
                (minute, before),
                (before, behind),
                (0, 10_080),
                (behind + 1, behind),
            ],
            false => [
                (minute, minute),
                (behind, minute),
                (behind, before),
                (before, minute),
                (0, minute),
            ],
        };
        let (from, to) = self.random.choose(&windows);
        self.request("window", &[name, Pick::Number(from), Pick::Number(to)]);
    }

    fn change(&mut self) {
        let assignment = self.random.choose(&Assignment::BOTH);
        let assign = self.random.percent(60);
        let (random, console) = self.random_and_console();
        let tables = console.house().tables();
        let aimed = match (assign, random.percent(10)) {
            (true, true) => prohibited_change(random, tables, assignment),
            (true, false) => assignment_to_make(random, tables, assignment),
            (false, _) => assignment_to_revoke(random, tables, assignment),
        };
        let user = aimed.as_ref().map(|change| change.user);
        let unit = aimed.as_ref().map(|change| change.unit);
        let left = aimed.as_ref().map(|change| change.left);
        let device_role = aimed.as_ref().map(|change| change.device_role);
        let permission = left.and_then(|number| tables.permissions.get(number).copied());
        let mut picks = vec![Pick::Of(List::Users, user), Pick::Of(List::Units, unit)];
        let record_name = match (assign, assignment) {
            (true, Assignment::RolePairs) => "assignRPDR",
            (false, Assignment::RolePairs) => "revokeRPDR",
            (true, Assignment::Permissions) => "assignPDR",
            (false, Assignment::Permissions) => "revokePDR",
        };
        if assignment == Assignment::RolePairs {
            picks.push(Pick::Of(List::RolePairs, left));
        } else {
            picks.push(Pick::Of(List::Devices, permission.map(|found| found.device)));
            picks.push(Pick::Of(List::Operations, permission.map(|found| found.operation)));
        }
        picks.push(Pick::Of(List::DeviceRoles, device_role));
        self.request(record_name, &picks);
    }

    fn sense(&mut self) {
        let conditions = self.console().draft().count(List::Conditions);
        let condition = self.random.number(conditions.min(16));
        let flag = self.random.choose(&["true", "true", "true", "false"]);
        self.request("sense", &[Pick::Of(List::Conditions, condition), Pick::Word(flag)]);
    }

    fn window(&mut self) {
        let conditions = self.console().draft().count(List::Conditions);
        let condition = self.random.number(conditions.saturating_sub(16)).map(|number| number + 16);
        let from = random_minute(&mut self.random);
        let to = if self.random.percent(15) { 10_080 } else { random_minute(&mut self.random) };
        self.request(
            "window",
            &[Pick::Of(List::Conditions, condition), Pick::Number(from), Pick::Number(to)],
        );
    }

    fn clock(&mut self) {
        let minute = random_minute(&mut self.random);
        self.request("clock", &[Pick::Number(minute)]);
    }
}

fn random_minute(random: &mut Random) -> Number {
    match random.below(10) {
        0 => random.below(10_080),
        _ => random.choose(&MINUTES),
    }
}

fn living_session(random: &mut Random, house: &House) -> Option<Number> {
    let living: Vec<Number> = house.sessions().keys().copied().collect();
    random.one_of(&living)
}

fn sleeping_session(random: &mut Random, house: &House) -> Option<Number> {
    let sleeping: Vec<Number> =
        (0..SESSIONS).filter(|session| !house.sessions().contains_key(session)).collect();
    random.one_of(&sleeping)
}

/// A user who holds a role.
fn random_holder(random: &mut Random, tables: &Draft) -> Option<Number> {
    let holders: Vec<Number> = tables.pairs(Relation::UserRoles).map(|(user, _)| user).collect();
    random.one_of(&holders)
}

/// A role that the session's user holds, mostly one that is not active yet.
fn role_to_activate(random: &mut Random, house: &House, session: Number) -> Option<Number> {
    let living = house.sessions().get(&session)?;
    let held = house.tables().pairs(Relation::UserRoles).filter(|&(user, _)| user == living.user);
    let roles: Vec<Number> = held.map(|(_, role)| role).collect();
    let inactive: Vec<Number> =
        roles.iter().copied().filter(|role| !living.active_roles.contains(role)).collect();
    if random.percent(75) && !inactive.is_empty() {
        random.one_of(&inactive)
    } else if random.percent(30) {
        None
    } else {
        random.one_of(&roles)
    }
}

fn active_role(random: &mut Random, house: &House, session: Number) -> Option<Number> {
    let active: Vec<Number> =
        house.sessions().get(&session)?.active_roles.iter().copied().collect();
    random.one_of(&active)
}

/// A permission that an active role of the session reaches.
fn reachable_permission(random: &mut Random, house: &House, session: Number) -> Option<Number> {
    let active = &house.sessions().get(&session)?.active_roles;
    let tables = house.tables();
    let device_roles: Vec<Number> = tables
        .pairs(Relation::RolePairAssignment)
        .filter(|&(role_pair, _)| active.contains(&tables.role_pairs[role_pair].role))
        .map(|(_, device_role)| device_role)
        .collect();
    let device_role = random.one_of(&device_roles)?;
    random_left(random, tables, Relation::PermissionAssignment, device_role)
}

/// A session, a permission that an active role of it can reach by a role pair, and the
/// conditions of one entry for each environment role of that role pair.
fn conditional_path(random: &mut Random, house: &House) -> Option<ConditionalPath> {
    let tables = house.tables();
    let mut candidates = Vec::new();
    for (&session, living) in house.sessions() {
        for (role_pair, device_role) in tables.pairs(Relation::RolePairAssignment) {
            let RolePair { role, environment_roles } = &tables.role_pairs[role_pair];
            if living.active_roles.contains(role) && !environment_roles.is_empty() {
                candidates.push((session, environment_roles, device_role));
            }
        }
    }
    for _ in 0..8 {
        let (session, environment_roles, device_role) = random.one_of(&candidates)?;
        let permission = random_left(random, tables, Relation::PermissionAssignment, device_role);
        let conditions = conditions_of_entries(random, tables, environment_roles);
        if let (Some(permission), Some(conditions)) = (permission, conditions) {
            return Some(ConditionalPath { session, permission, conditions });
        }
    }
    None
}

/// The conditions of one entry for each of these environment roles, if each has an entry.
fn conditions_of_entries(
    random: &mut Random,
    tables: &Draft,
    environment_roles: &BTreeSet<Number>,
) -> Option<BTreeSet<Number>> {
    let mut conditions = BTreeSet::new();
    for &environment_role in environment_roles {
        let has_role = |entry: &&Entry| entry.environment_role == environment_role;
        let entries: Vec<&Entry> = tables.entries.iter().filter(has_role).collect();
        conditions.extend(&random.one_of(&entries)?.conditions);
    }
    Some(conditions)
}

/// A pair in the task of some unit that is not assigned, if a few tries find one.
fn assignment_to_make(
    random: &mut Random,
    tables: &Draft,
    assignment: Assignment,
) -> Option<Change> {
    let lefts: Vec<(Number, Number)> = tables.pairs(assignment.task_left()).collect();
    let mut change = None;
    for _ in 0..4 {
        let (unit, left) = random.one_of(&lefts)?;
        let device_role = random_right(random, tables, assignment.task_right(), unit)?;
        let user = random_administrator(random, tables, unit)?;
        change = Some(Change { user, unit, left, device_role });
        if !tables.has(assignment.relation(), left, device_role) {
            break;
        }
    }
    change
}

/// A pair that is assigned and in the task of some unit, if a few tries find one.
fn assignment_to_revoke(
    random: &mut Random,
    tables: &Draft,
    assignment: Assignment,
) -> Option<Change> {
    let assigned: Vec<(Number, Number)> = tables.pairs(assignment.relation()).collect();
    for _ in 0..4 {
        let (left, device_role) = random.one_of(&assigned)?;
        let unit = (0..tables.count(List::Units))
            .find(|&unit| tables.task_holds(assignment, unit, left, device_role));
        if let Some(unit) = unit {
            let user = random_administrator(random, tables, unit)?;
            return Some(Change { user, unit, left, device_role });
        }
    }
    assignment_to_make(random, tables, assignment)
}

/// A prohibited pair under the lease of some unit.
fn prohibited_change(
    random: &mut Random,
    tables: &Draft,
    assignment: Assignment,
) -> Option<Change> {
    let prohibited: Vec<(Number, Number)> = tables.pairs(Relation::ProhibitedPairs).collect();
    let (left, device_role) = random.one_of(&prohibited)?;
    let unit = random.number(tables.count(List::Units))?;
    let user = random_administrator(random, tables, unit)?;
    let left = if assignment == Assignment::RolePairs {
        left
    } else {
        random.number(tables.permissions.len())?
    };
    Some(Change { user, unit, left, device_role })
}

fn random_right(
    random: &mut Random,
    tables: &Draft,
    relation: Relation,
    left: Number,
) -> Option<Number> {
    let rights: Vec<Number> =
        tables.pairs(relation).filter(|pair| pair.0 == left).map(|pair| pair.1).collect();
    random.one_of(&rights)
}

fn random_left(
    random: &mut Random,
    tables: &Draft,
    relation: Relation,
    right: Number,
) -> Option<Number> {
    let lefts: Vec<Number> =
        tables.pairs(relation).filter(|pair| pair.1 == right).map(|pair| pair.0).collect();
    random.one_of(&lefts)
}

fn random_administrator(random: &mut Random, tables: &Draft, unit: Number) -> Option<Number> {
    random_left(random, tables, Relation::Administrators, unit)
}
