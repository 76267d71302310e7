//! The box that reads text: names, one draft, one house, a sensor board and a week clock.

use std::collections::{BTreeMap, BTreeSet};
use std::ops::Range;

use crate::answer::Answer;
use crate::conditions::{Joined, SensorBoard, WeekClock};
use crate::draft::Draft;
use crate::house::{Access, House};
use crate::kinds::{shape_named, Action, Column, Kind, Shape};
use crate::reader::read_record;
use crate::refusal::{refuse_when, Refusal};
use crate::tables::{Assignment, List, Number};
use crate::values;

/// The most bytes of a text.
pub const LONGEST_TEXT: usize = 32_768;

/// Conditions below it are those of the sensor board, the rest those of the week clock.
const CUT: Number = 16;

/// A name as its bytes.
pub type Name = Vec<u8>;

/// The nine tables of names. A name's place in its table is the number of the thing.
#[derive(Debug, Default)]
pub struct Names {
    tables: BTreeMap<List, Vec<Name>>,
}

impl Names {
    /// The names of a table in the order of their declaration.
    pub fn of(&self, list: List) -> &[Name] {
        self.tables.get(&list).map_or(&[], Vec::as_slice)
    }

    pub fn find(&self, list: List, name: &[u8]) -> Option<Number> {
        self.of(list).iter().position(|known| known == name)
    }

    fn declare(&mut self, list: List, name: Name) {
        self.tables.entry(list).or_default().push(name);
    }
}

/// What became of one record.
#[derive(Clone, Debug, PartialEq, Eq)]
pub struct Judged {
    /// Where the record stands in the text, with the line break behind it.
    pub bytes: Range<usize>,
    pub answer: Answer,
    /// For the refusals 4 to 10: the byte at fault, or the first byte of the record.
    pub place: Option<usize>,
}

#[derive(Debug, Default)]
pub struct Console {
    names: Names,
    draft: Draft,
    house: House,
    board: SensorBoard,
    clock: WeekClock,
}

/// A field's value, read as its column wants it.
enum Value {
    New(List, Name),
    Of(List, Name),
    Number(Number),
    Flag(bool),
}

/// What a record says, with numbers in place of declared names.
struct Arguments {
    new_name: Option<Name>,
    /// The numbers in the order of the columns. Where the kind needs a declared permission,
    /// its number stands in place of device and operation.
    numbers: Vec<Number>,
    flag: Option<bool>,
}

/// What the console keeps.
impl Console {
    pub fn names(&self) -> &Names {
        &self.names
    }

    pub fn draft(&self) -> &Draft {
        &self.draft
    }

    pub fn house(&self) -> &House {
        &self.house
    }
}

/// Reading.
impl Console {
    /// Does all records of a text, one after another.
    pub fn read_text(&mut self, text: &[u8]) -> Result<Vec<Judged>, Refusal> {
        refuse_when(text.len() > LONGEST_TEXT, Refusal::TextTooLong)?;
        let mut judged = Vec::new();
        let mut place = 0;
        while place < text.len() {
            let record = self.read_one(text, place);
            place = record.bytes.end;
            judged.push(record);
        }
        Ok(judged)
    }

    /// Does the record that begins at `start`, which lies before the end of the text.
    pub fn read_one(&mut self, text: &[u8], start: usize) -> Judged {
        match read_record(text, start) {
            Err(fault) => Judged {
                bytes: start..fault.next,
                answer: Answer::Refused(Refusal::MalformedRecord),
                place: Some(fault.place),
            },
            Ok(record) => {
                let answer = self.judge(&record.fields).unwrap_or_else(Answer::Refused);
                let has_place =
                    matches!(answer, Answer::Refused(refusal) if refusal <= Refusal::TableFull);
                Judged { bytes: start..record.next, answer, place: has_place.then_some(start) }
            }
        }
    }

    /// Checks the reasons from 5 on and does what the record says.
    fn judge(&mut self, fields: &[Vec<u8>]) -> Result<Answer, Refusal> {
        let (name, rest) = fields.split_first().ok_or(Refusal::UnknownRecord)?;
        let shape = shape_named(name).ok_or(Refusal::UnknownRecord)?;
        refuse_when(!shape.allows(fields.len()), Refusal::WrongFieldCount)?;
        let values = read_values(shape, rest)?;
        self.refuse_declared(&values)?;
        let arguments = self.look_up(shape, values)?;
        self.perform(shape.kind, arguments)
    }

    /// Reason 8 for the name to be declared.
    fn refuse_declared(&self, values: &[Value]) -> Result<(), Refusal> {
        let repeats = |value: &Value| match value {
            Value::New(list, name) => self.names.find(*list, name).is_some(),
            _ => false,
        };
        refuse_when(values.iter().any(repeats), Refusal::AlreadyDeclared)
    }

    /// Reason 9 for every other name, and for the permission where the kind needs one.
    fn look_up(&self, shape: &Shape, values: Vec<Value>) -> Result<Arguments, Refusal> {
        let mut arguments = Arguments { new_name: None, numbers: Vec::new(), flag: None };
        for value in values {
            match value {
                Value::New(_, name) => arguments.new_name = Some(name),
                Value::Of(list, name) => {
                    let number = self.names.find(list, &name).ok_or(Refusal::NotDeclared)?;
                    arguments.numbers.push(number);
                }
                Value::Number(number) => arguments.numbers.push(number),
                Value::Flag(flag) => arguments.flag = Some(flag),
            }
        }
        if shape.needs_permission {
            self.fold_permission(shape, &mut arguments.numbers)?;
        }
        Ok(arguments)
    }

    /// Puts the number of the permission in place of its device and operation.
    fn fold_permission(&self, shape: &Shape, numbers: &mut Vec<Number>) -> Result<(), Refusal> {
        let device_column = Column::Of(List::Devices);
        let place = shape
            .columns
            .iter()
            .position(|&column| column == device_column)
            .expect("a kind that needs a permission has a device, and the operation behind it");
        let permission = self.draft.permission(numbers[place], numbers[place + 1]);
        numbers.splice(place..place + 2, [permission.ok_or(Refusal::NotDeclared)?]);
        Ok(())
    }
}

/// Reason 7: reads each field as its column wants it.
fn read_values(shape: &Shape, fields: &[Vec<u8>]) -> Result<Vec<Value>, Refusal> {
    let read = |(field, column): (&Vec<u8>, Column)| {
        read_value(field, column).ok_or(Refusal::BadlyWritten)
    };
    fields.iter().zip(shape.all_columns()).map(read).collect()
}

fn read_value(field: &[u8], column: Column) -> Option<Value> {
    match column {
        Column::New(list) => values::is_name(field).then(|| Value::New(list, field.to_vec())),
        Column::Of(list) => values::is_name(field).then(|| Value::Of(list, field.to_vec())),
        Column::Number => values::number(field).map(Value::Number),
        Column::Flag => values::flag(field).map(Value::Flag),
    }
}

/// Doing what a record says.
impl Console {
    /// Checks the reasons from 10 on (for `P` also 8) and does what the record says.
    fn perform(&mut self, kind: Kind, arguments: Arguments) -> Result<Answer, Refusal> {
        let Arguments { new_name, numbers, flag } = arguments;
        match (kind, numbers.as_slice(), new_name, flag) {
            (Kind::Declare(list), [], Some(name), None) => {
                self.draft.declare(list)?;
                self.names.declare(list, name);
                Ok(Answer::Silent)
            }
            (Kind::AddPermission, &[device, operation], None, None) => {
                self.draft.add_permission(device, operation)?;
                Ok(Answer::Silent)
            }
            (Kind::AddRolePair, [role, environment_roles @ ..], Some(name), None) => {
                self.draft.add_role_pair(*role, set_of(environment_roles))?;
                self.names.declare(List::RolePairs, name);
                Ok(Answer::Silent)
            }
            (Kind::AddEntry, [environment_role, conditions @ ..], None, None) => {
                self.draft.add_entry(*environment_role, set_of(conditions))?;
                Ok(Answer::Silent)
            }
            (Kind::Put(relation), &[left, right], None, None) => {
                self.draft.put(relation, left, right)?;
                Ok(Answer::Silent)
            }
            (Kind::Open, &[house_number], None, None) => self.open(house_number),
            (Kind::Start, &[session, user], None, None) => accept(self.house.start(session, user)),
            (Kind::End, &[session], None, None) => accept(self.house.end(session)),
            (Kind::Activate, &[session, role], None, None) => {
                accept(self.house.activate(session, role))
            }
            (Kind::Drop, &[session, role], None, None) => {
                accept(self.house.drop_role(session, role))
            }
            (Kind::CheckAccess, &[session, device, operation], None, None) => {
                self.check_access(session, device, operation)
            }
            (Kind::Change(action, assignment), &[user, unit, left, device_role], None, None) => {
                accept(self.change(action, assignment, user, unit, (left, device_role)))
            }
            (Kind::Sense, &[condition], None, Some(holds)) => accept(self.sense(condition, holds)),
            (Kind::Clock, &[minute], None, None) => accept(self.clock.set_minute(minute)),
            (Kind::Window, &[condition, from, to], None, None) => {
                accept(self.window(condition, from, to))
            }
            _ => unreachable!("the columns of a kind tell what it is given"),
        }
    }

    /// Opens the house with the draft under this number, which the draft keeps when accepted.
    fn open(&mut self, house_number: Number) -> Result<Answer, Refusal> {
        let numbered = Draft { house_number, ..self.draft.clone() };
        self.house.open(&numbered)?;
        self.draft = numbered;
        Ok(Answer::Accepted)
    }

    /// Three calls: acquire, change, release. The answer is their first refusal.
    fn change(
        &mut self,
        action: Action,
        assignment: Assignment,
        user: Number,
        unit: Number,
        (left, device_role): (Number, Number),
    ) -> Result<(), Refusal> {
        let lease = self.house.acquire(unit, user)?;
        let changed = match action {
            Action::Assign => self.house.assign(&lease, assignment, left, device_role),
            Action::Revoke => self.house.revoke(&lease, assignment, left, device_role),
        };
        let released = self.house.release(lease);
        changed.and(released)
    }

    fn check_access(
        &self,
        session: Number,
        device: Number,
        operation: Number,
    ) -> Result<Answer, Refusal> {
        let source = Joined { cut: CUT, first: &self.board, second: &self.clock };
        let access = self.house.check_access(session, device, operation, &source)?;
        Ok(match access {
            Access::Granted => Answer::Granted,
            Access::Denied => Answer::Denied,
        })
    }

    fn sense(&mut self, condition: Number, holds: bool) -> Result<(), Refusal> {
        refuse_when(condition >= CUT, Refusal::NoSuchNumber)?;
        self.board.report(condition, holds)
    }

    fn window(&mut self, condition: Number, from: Number, to: Number) -> Result<(), Refusal> {
        refuse_when(condition < CUT, Refusal::NoSuchNumber)?;
        self.clock.set_window(condition, from, to)
    }
}

fn accept(result: Result<(), Refusal>) -> Result<Answer, Refusal> {
    result.map(|()| Answer::Accepted)
}

fn set_of(numbers: &[Number]) -> BTreeSet<Number> {
    numbers.iter().copied().collect()
}
