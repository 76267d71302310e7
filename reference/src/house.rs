//! A house: opening, leases and changes, sessions, access checks.

use std::collections::{BTreeMap, BTreeSet};

use crate::conditions::ConditionSource;
use crate::draft::Draft;
use crate::refusal::{refuse_when, Refusal};
use crate::tables::{Assignment, List, Number, Relation};

/// How many sessions there are.
pub const SESSIONS: Number = 16;

/// What an opening makes of a draft, with its leases and sessions.
#[derive(Debug, Default)]
pub struct House {
    /// No number while the house was never opened.
    number: Option<Number>,
    /// The draft of the opening; its two assignment relations are changed under leases.
    tables: Draft,
    /// For each unit whose lease is out, the user to whom it is.
    leases: BTreeMap<Number, Number>,
    /// The sessions that live.
    sessions: BTreeMap<Number, Session>,
}

/// A session that lives.
#[derive(Debug)]
pub struct Session {
    pub user: Number,
    pub active_roles: BTreeSet<Number>,
}

/// The right to change assignments under one unit. Only an accepted `acquire` gives one.
#[derive(Debug)]
#[must_use = "a lease has to be released"]
pub struct Lease {
    house_number: Number,
    unit: Number,
    user: Number,
}

/// The answer of an access check that is not refused.
#[derive(Clone, Copy, Debug, PartialEq, Eq)]
pub enum Access {
    Granted,
    Denied,
}

/// What the house is now.
impl House {
    pub fn tables(&self) -> &Draft {
        &self.tables
    }

    pub fn sessions(&self) -> &BTreeMap<Number, Session> {
        &self.sessions
    }

    fn refuse_unknown(&self, list: List, number: Number) -> Result<(), Refusal> {
        refuse_when(!self.tables.declares(list, number), Refusal::NoSuchNumber)
    }
}

/// Opening.
impl House {
    pub fn open(&mut self, draft: &Draft) -> Result<(), Refusal> {
        let in_use = !self.leases.is_empty() || !self.sessions.is_empty();
        refuse_when(in_use, Refusal::HouseInUse)?;
        draft.check()?;
        self.number = Some(draft.house_number);
        self.tables = draft.clone();
        Ok(())
    }
}

/// Leases, and the changes made under them.
impl House {
    pub fn acquire(&mut self, unit: Number, user: Number) -> Result<Lease, Refusal> {
        self.refuse_unknown(List::Units, unit)?;
        self.refuse_unknown(List::Users, user)?;
        let administers = self.tables.has(Relation::Administrators, user, unit);
        refuse_when(!administers, Refusal::NotAdministrator)?;
        refuse_when(self.leases.contains_key(&unit), Refusal::LeaseOut)?;
        let house_number = self.number.ok_or(Refusal::NoSuchNumber)?;
        self.leases.insert(unit, user);
        Ok(Lease { house_number, unit, user })
    }

    /// Gives a lease back. The lease is spent, accepted or refused.
    pub fn release(&mut self, lease: Lease) -> Result<(), Refusal> {
        self.refuse_invalid(&lease)?;
        self.leases.remove(&lease.unit);
        Ok(())
    }

    pub fn assign(
        &mut self,
        lease: &Lease,
        assignment: Assignment,
        left: Number,
        device_role: Number,
    ) -> Result<(), Refusal> {
        self.refuse_change(lease, assignment, left, device_role)?;
        let assigned = self.tables.has(assignment.relation(), left, device_role);
        refuse_when(assigned, Refusal::AlreadyAssigned)?;
        let mut changed = self.tables.clone();
        changed.relations.entry(assignment.relation()).or_default().insert((left, device_role));
        refuse_when(changed.reaches_barred_permission(), Refusal::WouldReachBarredPermission)?;
        self.tables = changed;
        Ok(())
    }

    pub fn revoke(
        &mut self,
        lease: &Lease,
        assignment: Assignment,
        left: Number,
        device_role: Number,
    ) -> Result<(), Refusal> {
        self.refuse_change(lease, assignment, left, device_role)?;
        let assigned = self.tables.has(assignment.relation(), left, device_role);
        refuse_when(!assigned, Refusal::NotAssigned)?;
        self.tables
            .relations
            .entry(assignment.relation())
            .or_default()
            .remove(&(left, device_role));
        Ok(())
    }

    /// The reasons that assigning and revoking have in common: 17, 18, 21 and 22.
    fn refuse_change(
        &self,
        lease: &Lease,
        assignment: Assignment,
        left: Number,
        device_role: Number,
    ) -> Result<(), Refusal> {
        self.refuse_invalid(lease)?;
        let (left_list, right_list) = assignment.relation().halves();
        self.refuse_unknown(left_list, left)?;
        self.refuse_unknown(right_list, device_role)?;
        let prohibited = assignment == Assignment::RolePairs
            && self.tables.has(Relation::ProhibitedPairs, left, device_role);
        refuse_when(prohibited, Refusal::ProhibitedPair)?;
        let in_task = self.tables.task_holds(assignment, lease.unit, left, device_role);
        refuse_when(!in_task, Refusal::OutsideTask)
    }

    fn refuse_invalid(&self, lease: &Lease) -> Result<(), Refusal> {
        let valid = self.number == Some(lease.house_number)
            && self.leases.get(&lease.unit) == Some(&lease.user);
        refuse_when(!valid, Refusal::InvalidLease)
    }
}

/// Sessions.
impl House {
    pub fn start(&mut self, session: Number, user: Number) -> Result<(), Refusal> {
        refuse_no_session(session)?;
        self.refuse_unknown(List::Users, user)?;
        refuse_when(self.sessions.contains_key(&session), Refusal::SessionLive)?;
        let active_roles = BTreeSet::new();
        self.sessions.insert(session, Session { user, active_roles });
        Ok(())
    }

    pub fn end(&mut self, session: Number) -> Result<(), Refusal> {
        refuse_no_session(session)?;
        let ended = self.sessions.remove(&session);
        refuse_when(ended.is_none(), Refusal::SessionNotLive)
    }

    pub fn activate(&mut self, session: Number, role: Number) -> Result<(), Refusal> {
        refuse_no_session(session)?;
        self.refuse_unknown(List::Roles, role)?;
        let living = self.sessions.get_mut(&session).ok_or(Refusal::SessionNotLive)?;
        let held = self.tables.has(Relation::UserRoles, living.user, role);
        refuse_when(!held, Refusal::RoleNotHeld)?;
        refuse_when(living.active_roles.contains(&role), Refusal::RoleUnchanged)?;
        let separated =
            |other: Number| self.tables.separates(Relation::DynamicSeparation, role, other);
        let clashes = separated(role) || living.active_roles.iter().any(|&other| separated(other));
        refuse_when(clashes, Refusal::SeparatedRolesActive)?;
        living.active_roles.insert(role);
        Ok(())
    }

    pub fn drop_role(&mut self, session: Number, role: Number) -> Result<(), Refusal> {
        refuse_no_session(session)?;
        self.refuse_unknown(List::Roles, role)?;
        let living = self.sessions.get_mut(&session).ok_or(Refusal::SessionNotLive)?;
        let dropped = living.active_roles.remove(&role);
        refuse_when(!dropped, Refusal::RoleUnchanged)
    }
}

fn refuse_no_session(session: Number) -> Result<(), Refusal> {
    refuse_when(session >= SESSIONS, Refusal::NoSuchNumber)
}

/// Access checks.
impl House {
    pub fn check_access(
        &self,
        session: Number,
        device: Number,
        operation: Number,
        source: &dyn ConditionSource,
    ) -> Result<Access, Refusal> {
        refuse_no_session(session)?;
        self.refuse_unknown(List::Devices, device)?;
        self.refuse_unknown(List::Operations, operation)?;
        let living = self.sessions.get(&session).ok_or(Refusal::SessionNotLive)?;
        let permission =
            self.tables.permission(device, operation).ok_or(Refusal::NoSuchPermission)?;
        if self.has_authorization_path(living, permission, source) {
            Ok(Access::Granted)
        } else {
            Ok(Access::Denied)
        }
    }

    fn has_authorization_path(
        &self,
        session: &Session,
        permission: Number,
        source: &dyn ConditionSource,
    ) -> bool {
        let active_environment_roles = self.active_environment_roles(source);
        self.tables.pairs(Relation::RolePairAssignment).any(|(role_pair, device_role)| {
            let role_pair = &self.tables.role_pairs[role_pair];
            session.active_roles.contains(&role_pair.role)
                && role_pair.environment_roles.is_subset(&active_environment_roles)
                && self.tables.has(Relation::PermissionAssignment, permission, device_role)
        })
    }

    /// The environment roles of those entries all of whose own conditions hold.
    fn active_environment_roles(&self, source: &dyn ConditionSource) -> BTreeSet<Number> {
        let activated = self
            .tables
            .entries
            .iter()
            .filter(|entry| entry.conditions.iter().all(|&condition| source.holds(condition)));
        activated.map(|entry| entry.environment_role).collect()
    }
}

#[cfg(test)]
mod tests {
    use super::*;

    const GAMES: Number = 0;
    const HOME: Number = 1;
    const BOB: Number = 0;
    const ANN: Number = 1;

    /// Two users who administer two units, one role pair and one permission on one device role.
    fn draft(house_number: Number) -> Draft {
        let mut draft = Draft { house_number, ..Draft::default() };
        for list in [List::Users, List::Roles, List::Units] {
            draft.declare(list).expect("room");
            draft.declare(list).expect("room");
        }
        for list in [List::Devices, List::Operations, List::DeviceRoles] {
            draft.declare(list).expect("room");
        }
        draft.add_permission(0, 0).expect("declared");
        draft.add_role_pair(0, BTreeSet::new()).expect("declared");
        for (relation, left, right) in [
            (Relation::Administrators, BOB, GAMES),
            (Relation::Administrators, BOB, HOME),
            (Relation::Administrators, ANN, HOME),
            (Relation::RoleTaskRolePairs, GAMES, 0),
            (Relation::RoleTaskDeviceRoles, GAMES, 0),
            (Relation::PermissionTaskPermissions, HOME, 0),
            (Relation::PermissionTaskDeviceRoles, HOME, 0),
            (Relation::UserRoles, BOB, 0),
            (Relation::UserRoles, BOB, 1),
            (Relation::DynamicSeparation, 1, 0),
        ] {
            draft.put(relation, left, right).expect("declared");
        }
        draft
    }

    fn opened(house_number: Number) -> House {
        let mut house = House::default();
        house.open(&draft(house_number)).expect("lawful");
        house
    }

    #[test]
    fn a_lease_is_out_to_one_user() {
        let mut house = opened(7);
        assert_eq!(house.acquire(GAMES, ANN).err(), Some(Refusal::NotAdministrator));
        assert_eq!(house.acquire(2, BOB).err(), Some(Refusal::NoSuchNumber));
        assert_eq!(house.acquire(HOME, 2).err(), Some(Refusal::NoSuchNumber));
        let lease = house.acquire(HOME, ANN).expect("free");
        assert_eq!(house.acquire(HOME, BOB).err(), Some(Refusal::LeaseOut));
        assert_eq!(house.acquire(HOME, ANN).err(), Some(Refusal::LeaseOut));
        assert_eq!(house.open(&draft(8)), Err(Refusal::HouseInUse));
        assert_eq!(house.release(lease), Ok(()));
        assert_eq!(house.open(&draft(8)), Ok(()));
    }

    #[test]
    fn a_lease_is_judged_by_its_three_numbers() {
        let mut one = opened(7);
        let mut same_number = opened(7);
        let mut other_number = opened(8);
        let lease = one.acquire(GAMES, BOB).expect("free");
        let assign =
            |house: &mut House, lease: &Lease| house.assign(lease, Assignment::RolePairs, 0, 0);
        assert_eq!(assign(&mut other_number, &lease), Err(Refusal::InvalidLease));
        assert_eq!(assign(&mut same_number, &lease), Err(Refusal::InvalidLease));
        let twin = same_number.acquire(GAMES, BOB).expect("free");
        assert_eq!(assign(&mut same_number, &lease), Ok(()));
        assert_eq!(assign(&mut one, &twin), Ok(()));
        assert_eq!(other_number.release(lease), Err(Refusal::InvalidLease));
        assert_eq!(one.acquire(GAMES, BOB).err(), Some(Refusal::LeaseOut));
        assert_eq!(one.release(twin), Ok(()));
    }

    #[test]
    fn a_house_never_opened_has_nothing() {
        let mut house = House::default();
        let lease = opened(0).acquire(GAMES, BOB).expect("free");
        assert_eq!(house.assign(&lease, Assignment::RolePairs, 0, 0), Err(Refusal::InvalidLease));
        assert_eq!(house.release(lease), Err(Refusal::InvalidLease));
        assert_eq!(house.acquire(0, 0).err(), Some(Refusal::NoSuchNumber));
        assert_eq!(house.start(0, 0), Err(Refusal::NoSuchNumber));
        assert_eq!(house.activate(0, 0), Err(Refusal::NoSuchNumber));
        assert_eq!(house.drop_role(0, 0), Err(Refusal::NoSuchNumber));
        assert_eq!(house.end(15), Err(Refusal::SessionNotLive));
        assert_eq!(house.end(16), Err(Refusal::NoSuchNumber));
    }

    #[test]
    fn changes_stay_within_the_task() {
        let mut house = opened(7);
        let lease = house.acquire(GAMES, BOB).expect("free");
        assert_eq!(house.assign(&lease, Assignment::Permissions, 0, 0), Err(Refusal::OutsideTask));
        assert_eq!(house.assign(&lease, Assignment::RolePairs, 1, 0), Err(Refusal::NoSuchNumber));
        assert_eq!(house.revoke(&lease, Assignment::RolePairs, 0, 0), Err(Refusal::NotAssigned));
        assert_eq!(house.assign(&lease, Assignment::RolePairs, 0, 0), Ok(()));
        assert_eq!(
            house.assign(&lease, Assignment::RolePairs, 0, 0),
            Err(Refusal::AlreadyAssigned)
        );
        assert_eq!(house.revoke(&lease, Assignment::RolePairs, 0, 0), Ok(()));
        assert_eq!(house.release(lease), Ok(()));
    }

    #[test]
    fn dynamic_separation_holds_within_one_session() {
        let mut house = opened(7);
        assert_eq!(house.start(0, BOB), Ok(()));
        assert_eq!(house.start(1, BOB), Ok(()));
        assert_eq!(house.activate(0, 0), Ok(()));
        assert_eq!(house.activate(0, 1), Err(Refusal::SeparatedRolesActive));
        assert_eq!(house.activate(1, 1), Ok(()));
        assert_eq!(house.drop_role(0, 0), Ok(()));
        assert_eq!(house.activate(0, 1), Ok(()));
        assert_eq!(house.drop_role(0, 0), Err(Refusal::RoleUnchanged));
    }

    #[test]
    fn conditions_of_two_entries_are_never_put_together() {
        let mut draft = draft(7);
        for _ in 0..4 {
            draft.declare(List::Conditions).expect("room");
        }
        draft.declare(List::EnvironmentRoles).expect("room");
        draft.add_entry(0, BTreeSet::from([0, 1])).expect("declared");
        draft.add_entry(0, BTreeSet::from([2, 3])).expect("declared");
        draft.add_role_pair(0, BTreeSet::from([0])).expect("declared");
        draft.put(Relation::RolePairAssignment, 1, 0).expect("declared");
        draft.put(Relation::PermissionAssignment, 0, 0).expect("declared");
        let mut house = House::default();
        house.open(&draft).expect("lawful");
        house.start(0, BOB).expect("free");
        let access = |house: &House, holding: [Number; 2]| {
            house.check_access(0, 0, 0, &BTreeSet::from(holding))
        };
        assert_eq!(access(&house, [0, 1]), Ok(Access::Denied), "no role is active");
        house.activate(0, 0).expect("held");
        assert_eq!(access(&house, [0, 2]), Ok(Access::Denied));
        assert_eq!(access(&house, [0, 1]), Ok(Access::Granted));
        assert_eq!(access(&house, [2, 3]), Ok(Access::Granted));
    }
}
