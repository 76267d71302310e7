//! The 36 kinds of records: their names, columns and numbers of fields.

use crate::tables::{Assignment, List, Relation};

/// The most fields that a record of any kind has, its name included.
pub const MOST_FIELDS: usize = 40;

/// What a record does.
#[derive(Clone, Copy, Debug, PartialEq, Eq)]
pub enum Kind {
    Declare(List),
    AddPermission,
    AddRolePair,
    AddEntry,
    Put(Relation),
    Open,
    Start,
    End,
    Activate,
    Drop,
    CheckAccess,
    Change(Action, Assignment),
    Sense,
    Clock,
    Window,
}

/// What a change record does with its pair.
#[derive(Clone, Copy, Debug, PartialEq, Eq)]
pub enum Action {
    Assign,
    Revoke,
}

/// What a field behind the record name has to be.
#[derive(Clone, Copy, Debug, PartialEq, Eq)]
pub enum Column {
    /// A name to be declared in the table of names of this list.
    New(List),
    /// A name that is declared there.
    Of(List),
    Number,
    Flag,
}

/// How the records of one kind are written.
#[derive(Debug)]
pub struct Shape {
    pub name: &'static str,
    pub kind: Kind,
    /// The columns that stand exactly once.
    pub columns: &'static [Column],
    /// The column that may follow any number of times.
    pub repeated: Option<Column>,
    /// Whether device and operation have to form a permission of the draft.
    pub needs_permission: bool,
}

impl Shape {
    /// Whether a record of this kind may have so many fields, its name included.
    pub fn allows(&self, fields: usize) -> bool {
        let least = self.columns.len() + 1;
        let most = if self.repeated.is_some() { MOST_FIELDS } else { least };
        (least..=most).contains(&fields)
    }

    /// The columns of the fields behind the record name, in order, without end where one repeats.
    pub fn all_columns(&self) -> impl Iterator<Item = Column> + '_ {
        let repeated = self.repeated.into_iter().cycle();
        self.columns.iter().copied().chain(repeated)
    }
}

/// The kind that has this record name.
pub fn shape_named(name: &[u8]) -> Option<&'static Shape> {
    SHAPES.iter().find(|shape| shape.name.as_bytes() == name)
}

const fn shape(name: &'static str, kind: Kind, columns: &'static [Column]) -> Shape {
    Shape { name, kind, columns, repeated: None, needs_permission: false }
}

/// A shape whose device and operation have to form a permission.
const fn on_permission(name: &'static str, kind: Kind, columns: &'static [Column]) -> Shape {
    Shape { name, kind, columns, repeated: None, needs_permission: true }
}

/// A shape that ends with any number of one more column.
const fn with_more(
    name: &'static str,
    kind: Kind,
    columns: &'static [Column],
    more: Column,
) -> Shape {
    Shape { name, kind, columns, repeated: Some(more), needs_permission: false }
}

const USER: Column = Column::Of(List::Users);
const ROLE: Column = Column::Of(List::Roles);
const DEVICE: Column = Column::Of(List::Devices);
const OPERATION: Column = Column::Of(List::Operations);
const DEVICE_ROLE: Column = Column::Of(List::DeviceRoles);
const CONDITION: Column = Column::Of(List::Conditions);
const ENVIRONMENT_ROLE: Column = Column::Of(List::EnvironmentRoles);
const UNIT: Column = Column::Of(List::Units);
const ROLE_PAIR: Column = Column::Of(List::RolePairs);
const NUMBER: Column = Column::Number;

/// All kinds, in the order in which the description of the format lists them.
pub const SHAPES: [Shape; 36] = [
    shape("U", Kind::Declare(List::Users), &[Column::New(List::Users)]),
    shape("R", Kind::Declare(List::Roles), &[Column::New(List::Roles)]),
    shape("D", Kind::Declare(List::Devices), &[Column::New(List::Devices)]),
    shape("OP", Kind::Declare(List::Operations), &[Column::New(List::Operations)]),
    shape("DR", Kind::Declare(List::DeviceRoles), &[Column::New(List::DeviceRoles)]),
    shape("EC", Kind::Declare(List::Conditions), &[Column::New(List::Conditions)]),
    shape("ER", Kind::Declare(List::EnvironmentRoles), &[Column::New(List::EnvironmentRoles)]),
    shape("AR", Kind::Declare(List::Units), &[Column::New(List::Units)]),
    shape("P", Kind::AddPermission, &[DEVICE, OPERATION]),
    with_more("RP", Kind::AddRolePair, &[Column::New(List::RolePairs), ROLE], ENVIRONMENT_ROLE),
    with_more("EA", Kind::AddEntry, &[ENVIRONMENT_ROLE], CONDITION),
    shape("UA", Kind::Put(Relation::UserRoles), &[USER, ROLE]),
    on_permission(
        "PDRA",
        Kind::Put(Relation::PermissionAssignment),
        &[DEVICE, OPERATION, DEVICE_ROLE],
    ),
    shape("RPDRA", Kind::Put(Relation::RolePairAssignment), &[ROLE_PAIR, DEVICE_ROLE]),
    on_permission("PRConstraints", Kind::Put(Relation::Bars), &[DEVICE, OPERATION, ROLE]),
    shape("SSDConstraints", Kind::Put(Relation::StaticSeparation), &[ROLE, ROLE]),
    shape("DSDConstraints", Kind::Put(Relation::DynamicSeparation), &[ROLE, ROLE]),
    shape("AUA", Kind::Put(Relation::Administrators), &[USER, UNIT]),
    shape("R-AT-RP", Kind::Put(Relation::RoleTaskRolePairs), &[UNIT, ROLE_PAIR]),
    shape("R-AT-DR", Kind::Put(Relation::RoleTaskDeviceRoles), &[UNIT, DEVICE_ROLE]),
    on_permission(
        "P-AT-P",
        Kind::Put(Relation::PermissionTaskPermissions),
        &[UNIT, DEVICE, OPERATION],
    ),
    shape("P-AT-DR", Kind::Put(Relation::PermissionTaskDeviceRoles), &[UNIT, DEVICE_ROLE]),
    shape("ProhibitedAssignment", Kind::Put(Relation::ProhibitedPairs), &[ROLE_PAIR, DEVICE_ROLE]),
    shape("open", Kind::Open, &[NUMBER]),
    shape("start", Kind::Start, &[NUMBER, USER]),
    shape("end", Kind::End, &[NUMBER]),
    shape("activate", Kind::Activate, &[NUMBER, ROLE]),
    shape("drop", Kind::Drop, &[NUMBER, ROLE]),
    shape("checkAccess", Kind::CheckAccess, &[NUMBER, DEVICE, OPERATION]),
    shape("assignRPDR", ASSIGN_ROLE_PAIR, &[USER, UNIT, ROLE_PAIR, DEVICE_ROLE]),
    shape("revokeRPDR", REVOKE_ROLE_PAIR, &[USER, UNIT, ROLE_PAIR, DEVICE_ROLE]),
    on_permission("assignPDR", ASSIGN_PERMISSION, &[USER, UNIT, DEVICE, OPERATION, DEVICE_ROLE]),
    on_permission("revokePDR", REVOKE_PERMISSION, &[USER, UNIT, DEVICE, OPERATION, DEVICE_ROLE]),
    shape("sense", Kind::Sense, &[CONDITION, Column::Flag]),
    shape("clock", Kind::Clock, &[NUMBER]),
    shape("window", Kind::Window, &[CONDITION, NUMBER, NUMBER]),
];

const ASSIGN_ROLE_PAIR: Kind = Kind::Change(Action::Assign, Assignment::RolePairs);
const REVOKE_ROLE_PAIR: Kind = Kind::Change(Action::Revoke, Assignment::RolePairs);
const ASSIGN_PERMISSION: Kind = Kind::Change(Action::Assign, Assignment::Permissions);
const REVOKE_PERMISSION: Kind = Kind::Change(Action::Revoke, Assignment::Permissions);

#[cfg(test)]
mod tests {
    use super::*;

    #[test]
    fn every_kind_has_a_name_of_its_own() {
        for shape in &SHAPES {
            let found = shape_named(shape.name.as_bytes()).expect("named");
            assert_eq!(found.kind, shape.kind);
        }
        assert!(shape_named(b"u").is_none());
        assert!(shape_named(b"").is_none());
    }

    #[test]
    fn fields_are_counted_with_the_record_name() {
        let allowed = |name: &str| -> Vec<usize> {
            let shape = shape_named(name.as_bytes()).expect("named");
            (0..60).filter(|&fields| shape.allows(fields)).collect()
        };
        assert_eq!(allowed("U"), [2]);
        assert_eq!(allowed("P"), [3]);
        assert_eq!(allowed("revokePDR"), [6]);
        assert_eq!(allowed("RP"), (3..=40).collect::<Vec<_>>());
        assert_eq!(allowed("EA"), (2..=40).collect::<Vec<_>>());
    }
}
