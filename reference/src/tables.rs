//! The lists and relations of a house: their names, limits and items.

use std::collections::BTreeSet;

/// The number of a thing in its list, from 0, or any other number of the rules.
pub type Number = usize;

/// A pair of numbers in a relation.
pub type Pair = (Number, Number);

/// The largest house number.
pub const LAST_HOUSE_NUMBER: Number = 999_999;

/// The lists of a house.
#[derive(Clone, Copy, Debug, PartialEq, Eq, PartialOrd, Ord)]
pub enum List {
    Users,
    Roles,
    Devices,
    Operations,
    Permissions,
    DeviceRoles,
    Conditions,
    EnvironmentRoles,
    Entries,
    RolePairs,
    Units,
}

impl List {
    pub const ALL: [List; 11] = [
        List::Users,
        List::Roles,
        List::Devices,
        List::Operations,
        List::Permissions,
        List::DeviceRoles,
        List::Conditions,
        List::EnvironmentRoles,
        List::Entries,
        List::RolePairs,
        List::Units,
    ];

    /// The most items that the list of a lawful draft has.
    pub fn limit(self) -> usize {
        match self {
            List::Permissions | List::Entries | List::RolePairs => 64,
            List::Units => 16,
            _ => 32,
        }
    }
}

/// One device and one operation.
#[derive(Clone, Copy, Debug, PartialEq, Eq)]
pub struct Permission {
    pub device: Number,
    pub operation: Number,
}

/// One role and the environment roles it asks for.
#[derive(Clone, Debug, PartialEq, Eq)]
pub struct RolePair {
    pub role: Number,
    pub environment_roles: BTreeSet<Number>,
}

/// One environment role and the conditions that together activate it.
#[derive(Clone, Debug, PartialEq, Eq)]
pub struct Entry {
    pub environment_role: Number,
    pub conditions: BTreeSet<Number>,
}

/// The relations of a house.
#[derive(Clone, Copy, Debug, PartialEq, Eq, PartialOrd, Ord)]
pub enum Relation {
    UserRoles,
    PermissionAssignment,
    RolePairAssignment,
    Bars,
    StaticSeparation,
    DynamicSeparation,
    Administrators,
    RoleTaskRolePairs,
    RoleTaskDeviceRoles,
    PermissionTaskPermissions,
    PermissionTaskDeviceRoles,
    ProhibitedPairs,
}

impl Relation {
    pub const ALL: [Relation; 12] = [
        Relation::UserRoles,
        Relation::PermissionAssignment,
        Relation::RolePairAssignment,
        Relation::Bars,
        Relation::StaticSeparation,
        Relation::DynamicSeparation,
        Relation::Administrators,
        Relation::RoleTaskRolePairs,
        Relation::RoleTaskDeviceRoles,
        Relation::PermissionTaskPermissions,
        Relation::PermissionTaskDeviceRoles,
        Relation::ProhibitedPairs,
    ];

    /// The lists in which the left and the right half of a pair are declared.
    pub fn halves(self) -> (List, List) {
        match self {
            Relation::UserRoles => (List::Users, List::Roles),
            Relation::PermissionAssignment => (List::Permissions, List::DeviceRoles),
            Relation::RolePairAssignment => (List::RolePairs, List::DeviceRoles),
            Relation::Bars => (List::Permissions, List::Roles),
            Relation::StaticSeparation => (List::Roles, List::Roles),
            Relation::DynamicSeparation => (List::Roles, List::Roles),
            Relation::Administrators => (List::Users, List::Units),
            Relation::RoleTaskRolePairs => (List::Units, List::RolePairs),
            Relation::RoleTaskDeviceRoles => (List::Units, List::DeviceRoles),
            Relation::PermissionTaskPermissions => (List::Units, List::Permissions),
            Relation::PermissionTaskDeviceRoles => (List::Units, List::DeviceRoles),
            Relation::ProhibitedPairs => (List::RolePairs, List::DeviceRoles),
        }
    }
}

/// The two assignment relations, each with the task that governs its changes.
#[derive(Clone, Copy, Debug, PartialEq, Eq)]
pub enum Assignment {
    Permissions,
    RolePairs,
}

impl Assignment {
    pub const BOTH: [Assignment; 2] = [Assignment::Permissions, Assignment::RolePairs];

    pub fn relation(self) -> Relation {
        match self {
            Assignment::Permissions => Relation::PermissionAssignment,
            Assignment::RolePairs => Relation::RolePairAssignment,
        }
    }

    /// The relation of a unit and the left halves of its task: permissions or role pairs.
    pub fn task_left(self) -> Relation {
        match self {
            Assignment::Permissions => Relation::PermissionTaskPermissions,
            Assignment::RolePairs => Relation::RoleTaskRolePairs,
        }
    }

    /// The relation of a unit and the device roles of its task.
    pub fn task_right(self) -> Relation {
        match self {
            Assignment::Permissions => Relation::PermissionTaskDeviceRoles,
            Assignment::RolePairs => Relation::RoleTaskDeviceRoles,
        }
    }
}
