//! Drafts: tables and a house number, the calls that build them, and their check.

use std::collections::{BTreeMap, BTreeSet};

use crate::refusal::{refuse_when, Refusal};
use crate::tables::{
    Assignment, Entry, List, Number, Pair, Permission, Relation, RolePair, LAST_HOUSE_NUMBER,
};

/// All lists and relations, and a house number. It may hold anything, lawful or not.
#[derive(Clone, Debug, Default, PartialEq, Eq)]
pub struct Draft {
    pub house_number: Number,
    /// How many items the lists have whose items are just numbers.
    pub counts: BTreeMap<List, usize>,
    pub permissions: Vec<Permission>,
    pub role_pairs: Vec<RolePair>,
    pub entries: Vec<Entry>,
    pub relations: BTreeMap<Relation, BTreeSet<Pair>>,
}

/// What the tables say.
impl Draft {
    /// How many items a list has.
    pub fn count(&self, list: List) -> usize {
        match list {
            List::Permissions => self.permissions.len(),
            List::RolePairs => self.role_pairs.len(),
            List::Entries => self.entries.len(),
            _ => self.counts.get(&list).copied().unwrap_or(0),
        }
    }

    pub fn declares(&self, list: List, number: Number) -> bool {
        number < self.count(list)
    }

    pub fn has(&self, relation: Relation, left: Number, right: Number) -> bool {
        self.relations.get(&relation).is_some_and(|pairs| pairs.contains(&(left, right)))
    }

    /// The pairs of a relation, in order.
    pub fn pairs(&self, relation: Relation) -> impl Iterator<Item = Pair> + '_ {
        self.relations.get(&relation).into_iter().flatten().copied()
    }

    /// Whether a separation pairs the two roles, in either order.
    pub fn separates(&self, separation: Relation, one: Number, other: Number) -> bool {
        self.has(separation, one, other) || self.has(separation, other, one)
    }

    /// The number of the permission made of that device and that operation.
    pub fn permission(&self, device: Number, operation: Number) -> Option<Number> {
        let wanted = Permission { device, operation };
        self.permissions.iter().position(|&permission| permission == wanted)
    }

    /// Whether the unit's task for this kind of assignment holds the pair.
    pub fn task_holds(
        &self,
        assignment: Assignment,
        unit: Number,
        left: Number,
        device_role: Number,
    ) -> bool {
        self.has(assignment.task_left(), unit, left)
            && self.has(assignment.task_right(), unit, device_role)
    }

    /// Whether a role pair of the role and the permission are assigned to one device role.
    pub fn reaches(&self, role: Number, permission: Number) -> bool {
        self.pairs(Relation::RolePairAssignment).any(|(role_pair, device_role)| {
            self.role_pairs[role_pair].role == role
                && self.has(Relation::PermissionAssignment, permission, device_role)
        })
    }

    /// Whether some role reaches a permission that is barred to it.
    pub fn reaches_barred_permission(&self) -> bool {
        self.pairs(Relation::Bars).any(|(permission, role)| self.reaches(role, permission))
    }
}

/// The calls on a draft.
impl Draft {
    /// Declares one more item of a list whose items are just numbers, and gives its number.
    pub fn declare(&mut self, list: List) -> Result<Number, Refusal> {
        self.refuse_full(list)?;
        let count = self.counts.entry(list).or_insert(0);
        *count += 1;
        Ok(*count - 1)
    }

    pub fn add_permission(&mut self, device: Number, operation: Number) -> Result<Number, Refusal> {
        let repeated = self.permission(device, operation).is_some();
        refuse_when(repeated, Refusal::AlreadyDeclared)?;
        self.refuse_undeclared(List::Devices, device)?;
        self.refuse_undeclared(List::Operations, operation)?;
        self.refuse_full(List::Permissions)?;
        self.permissions.push(Permission { device, operation });
        Ok(self.permissions.len() - 1)
    }

    pub fn add_role_pair(
        &mut self,
        role: Number,
        environment_roles: BTreeSet<Number>,
    ) -> Result<Number, Refusal> {
        self.refuse_undeclared(List::Roles, role)?;
        for &environment_role in &environment_roles {
            self.refuse_undeclared(List::EnvironmentRoles, environment_role)?;
        }
        self.refuse_full(List::RolePairs)?;
        self.role_pairs.push(RolePair { role, environment_roles });
        Ok(self.role_pairs.len() - 1)
    }

    pub fn add_entry(
        &mut self,
        environment_role: Number,
        conditions: BTreeSet<Number>,
    ) -> Result<Number, Refusal> {
        self.refuse_undeclared(List::EnvironmentRoles, environment_role)?;
        for &condition in &conditions {
            self.refuse_undeclared(List::Conditions, condition)?;
        }
        self.refuse_full(List::Entries)?;
        self.entries.push(Entry { environment_role, conditions });
        Ok(self.entries.len() - 1)
    }

    pub fn put(&mut self, relation: Relation, left: Number, right: Number) -> Result<(), Refusal> {
        let (left_list, right_list) = relation.halves();
        self.refuse_undeclared(left_list, left)?;
        self.refuse_undeclared(right_list, right)?;
        self.relations.entry(relation).or_default().insert((left, right));
        Ok(())
    }

    fn refuse_undeclared(&self, list: List, number: Number) -> Result<(), Refusal> {
        let declared = self.declares(list, number) && number < list.limit();
        refuse_when(!declared, Refusal::NotDeclared)
    }

    fn refuse_full(&self, list: List) -> Result<(), Refusal> {
        refuse_when(self.count(list) >= list.limit(), Refusal::TableFull)
    }
}

/// The check of a draft.
impl Draft {
    /// The first of the reasons 12 to 16 that applies.
    pub fn check(&self) -> Result<(), Refusal> {
        refuse_when(self.is_ill_formed(), Refusal::IllFormedDraft)?;
        refuse_when(self.has_separated_roles_held(), Refusal::SeparatedRolesHeld)?;
        refuse_when(self.has_overlapping_units(), Refusal::UnitsOverlap)?;
        refuse_when(self.has_prohibited_pair_assigned(), Refusal::ProhibitedPairAssigned)?;
        refuse_when(self.reaches_barred_permission(), Refusal::ReachesBarredPermission)
    }

    fn is_ill_formed(&self) -> bool {
        List::ALL.iter().any(|&list| self.count(list) > list.limit())
            || self.permissions.iter().any(|permission| !self.permission_is_declared(permission))
            || has_repeat(&self.permissions)
            || self.role_pairs.iter().any(|role_pair| !self.role_pair_is_declared(role_pair))
            || has_repeat(&self.role_pairs)
            || self.entries.iter().any(|entry| !self.entry_is_declared(entry))
            || Relation::ALL.iter().any(|&relation| !self.relation_is_declared(relation))
            || self.house_number > LAST_HOUSE_NUMBER
    }

    fn permission_is_declared(&self, permission: &Permission) -> bool {
        self.declares(List::Devices, permission.device)
            && self.declares(List::Operations, permission.operation)
    }

    fn role_pair_is_declared(&self, role_pair: &RolePair) -> bool {
        let declared = |&number: &Number| self.declares(List::EnvironmentRoles, number);
        self.declares(List::Roles, role_pair.role)
            && role_pair.environment_roles.iter().all(declared)
    }

    fn entry_is_declared(&self, entry: &Entry) -> bool {
        let declared = |&number: &Number| self.declares(List::Conditions, number);
        self.declares(List::EnvironmentRoles, entry.environment_role)
            && entry.conditions.iter().all(declared)
    }

    fn relation_is_declared(&self, relation: Relation) -> bool {
        let (left_list, right_list) = relation.halves();
        self.pairs(relation)
            .all(|(left, right)| self.declares(left_list, left) && self.declares(right_list, right))
    }

    fn has_separated_roles_held(&self) -> bool {
        let users = 0..self.count(List::Users);
        self.pairs(Relation::StaticSeparation).any(|(one, other)| {
            users.clone().any(|user| {
                self.has(Relation::UserRoles, user, one)
                    && self.has(Relation::UserRoles, user, other)
            })
        })
    }

    fn has_overlapping_units(&self) -> bool {
        let units = self.count(List::Units);
        (0..units).any(|one| {
            (one + 1..units).any(|other| {
                Assignment::BOTH
                    .iter()
                    .any(|&assignment| self.tasks_overlap(assignment, one, other))
            })
        })
    }

    /// Whether some pair is in the tasks of both units.
    fn tasks_overlap(&self, assignment: Assignment, one: Number, other: Number) -> bool {
        self.share(assignment.task_left(), one, other)
            && self.share(assignment.task_right(), one, other)
    }

    /// Whether two units have some right half of the relation in common.
    fn share(&self, relation: Relation, one: Number, other: Number) -> bool {
        self.pairs(relation).any(|(unit, half)| unit == one && self.has(relation, other, half))
    }

    fn has_prohibited_pair_assigned(&self) -> bool {
        self.pairs(Relation::ProhibitedPairs).any(|(role_pair, device_role)| {
            self.has(Relation::RolePairAssignment, role_pair, device_role)
        })
    }
}

fn has_repeat<Item: PartialEq>(items: &[Item]) -> bool {
    items.iter().enumerate().any(|(place, item)| items[..place].contains(item))
}

#[cfg(test)]
mod tests {
    use super::*;

    /// Two of everything, and no pair in any relation.
    fn small() -> Draft {
        let mut draft = Draft::default();
        for list in List::ALL {
            if !matches!(list, List::Permissions | List::RolePairs | List::Entries) {
                draft.declare(list).expect("room");
                draft.declare(list).expect("room");
            }
        }
        for number in 0..2 {
            draft.add_permission(number, number).expect("new");
            draft.add_role_pair(number, BTreeSet::new()).expect("declared");
            draft.add_entry(number, BTreeSet::from([number])).expect("declared");
        }
        draft
    }

    fn with(pairs: &[(Relation, Number, Number)]) -> Draft {
        let mut draft = small();
        for &(relation, left, right) in pairs {
            draft.put(relation, left, right).expect("declared");
        }
        draft
    }

    #[test]
    fn an_empty_draft_and_a_small_one_are_lawful() {
        assert_eq!(Draft::default().check(), Ok(()));
        assert_eq!(small().check(), Ok(()));
    }

    #[test]
    fn calls_refuse_repeats_undeclared_numbers_and_full_lists_in_that_order() {
        let mut draft = small();
        assert_eq!(draft.add_permission(0, 0), Err(Refusal::AlreadyDeclared));
        assert_eq!(draft.add_permission(0, 2), Err(Refusal::NotDeclared));
        assert_eq!(draft.add_role_pair(0, BTreeSet::from([2])), Err(Refusal::NotDeclared));
        assert_eq!(draft.add_role_pair(0, BTreeSet::new()), Ok(2));
        assert_eq!(draft.put(Relation::Bars, 2, 0), Err(Refusal::NotDeclared));
        for number in 2..16 {
            assert_eq!(draft.declare(List::Units), Ok(number));
        }
        assert_eq!(draft.declare(List::Units), Err(Refusal::TableFull));
        while draft.entries.len() < 64 {
            draft.add_entry(0, BTreeSet::new()).expect("room");
        }
        assert_eq!(draft.add_entry(2, BTreeSet::new()), Err(Refusal::NotDeclared));
        assert_eq!(draft.add_entry(1, BTreeSet::new()), Err(Refusal::TableFull));
        assert_eq!(draft.check(), Err(Refusal::IllFormedDraft));
    }

    #[test]
    fn ill_formed_drafts() {
        let spoil: [fn(&mut Draft); 9] = [
            |draft| *draft.counts.entry(List::Users).or_default() = 33,
            |draft| draft.permissions.push(Permission { device: 2, operation: 0 }),
            |draft| draft.permissions.push(Permission { device: 0, operation: 0 }),
            |draft| draft.role_pairs.push(RolePair { role: 2, environment_roles: BTreeSet::new() }),
            |draft| {
                draft.role_pairs.push(RolePair { role: 0, environment_roles: BTreeSet::from([2]) })
            },
            |draft| draft.role_pairs.push(RolePair { role: 0, environment_roles: BTreeSet::new() }),
            |draft| {
                draft.entries.push(Entry { environment_role: 0, conditions: BTreeSet::from([2]) })
            },
            |draft| drop(draft.relations.insert(Relation::Bars, BTreeSet::from([(0, 2)]))),
            |draft| draft.house_number = 1_000_000,
        ];
        for (place, change) in spoil.iter().enumerate() {
            let mut draft = small();
            change(&mut draft);
            assert_eq!(draft.check(), Err(Refusal::IllFormedDraft), "change {place}");
        }
    }

    #[test]
    fn the_same_entry_twice_is_lawful() {
        let mut draft = small();
        draft.add_entry(0, BTreeSet::from([0])).expect("declared");
        assert_eq!(draft.check(), Ok(()));
    }

    #[test]
    fn separated_roles_may_not_be_held_together() {
        use Relation::{StaticSeparation, UserRoles};
        let both = [(UserRoles, 0, 0), (UserRoles, 0, 1)];
        for (one, other) in [(0, 1), (1, 0), (1, 1)] {
            let draft = with(&[both[0], both[1], (StaticSeparation, one, other)]);
            assert_eq!(draft.check(), Err(Refusal::SeparatedRolesHeld));
        }
        let apart = with(&[(UserRoles, 0, 0), (UserRoles, 1, 1), (StaticSeparation, 0, 1)]);
        assert_eq!(apart.check(), Ok(()));
    }

    #[test]
    fn units_overlap_when_they_share_a_pair_of_one_kind_of_task() {
        for assignment in Assignment::BOTH {
            let (left, right) = (assignment.task_left(), assignment.task_right());
            let sharing = [(left, 0, 1), (left, 1, 1), (right, 0, 0), (right, 1, 0)];
            assert_eq!(with(&sharing).check(), Err(Refusal::UnitsOverlap));
            assert_eq!(with(&sharing[..3]).check(), Ok(()));
        }
    }

    #[test]
    fn prohibited_pairs_and_barred_permissions() {
        use Relation::{Bars, PermissionAssignment, ProhibitedPairs, RolePairAssignment};
        let reach = [(RolePairAssignment, 0, 1), (PermissionAssignment, 1, 1), (Bars, 1, 0)];
        assert_eq!(with(&reach).check(), Err(Refusal::ReachesBarredPermission));
        assert_eq!(with(&reach[..2]).check(), Ok(()));
        assert_eq!(with(&reach[1..]).check(), Ok(()));
        let prohibited = [reach[0], reach[1], reach[2], (ProhibitedPairs, 0, 1)];
        assert_eq!(with(&prohibited).check(), Err(Refusal::ProhibitedPairAssigned));
    }
}
