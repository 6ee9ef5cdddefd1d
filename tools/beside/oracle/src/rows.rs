//! Rows that are written, read and walked by one table of their fields.

use crate::answer::Form;
use crate::bytes::Reader;

/// What a row of this type holds at one place: a number, or a list of rows.
pub struct Field<R> {
    pub put: fn(&R, &Form, &mut dyn Sink),
    pub take: fn(&mut R, &Form, &mut Reader),
}

#[derive(Clone, Copy, PartialEq, Eq)]
pub enum Kind {
    /// The record's own fields, and counts and indexes.
    Plain,
    Flags,
    Float,
}

/// What fields are put into, one after the other.
pub trait Sink {
    fn field(&mut self, name: &'static str, kind: Kind, bytes: &[u8]);

    /// The fields from here to `leave` are of the row of this number in its list.
    fn enter(&mut self, _row: &'static str, _number: usize) {}

    fn leave(&mut self) {}
}

impl Sink for Vec<u8> {
    fn field(&mut self, _name: &'static str, _kind: Kind, bytes: &[u8]) {
        self.extend_from_slice(bytes);
    }
}

pub fn put<R>(row: &R, fields: &[Field<R>], form: &Form, to: &mut dyn Sink) {
    fields.iter().for_each(|field| (field.put)(row, form, to));
}

pub fn take<R>(row: &mut R, fields: &[Field<R>], form: &Form, from: &mut Reader) {
    fields
        .iter()
        .for_each(|field| (field.take)(row, form, from));
}

/// A number of some type, big-endian, and where a row keeps it.
macro_rules! number {
    ($name:literal, $type:ty, $($place:tt).+) => { number!($name, Plain, $type, $($place).+) };
    ($name:literal, $kind:ident, $type:ty, $($place:tt).+) => {
        Field {
            put: |row, _, to| to.field($name, Kind::$kind, &<$type>::to_be_bytes(row.$($place).+)),
            take: |row, _, from| row.$($place).+ = <$type>::from_be_bytes(from.array()),
        }
    };
}

macro_rules! flags {
    ($name:literal, $place:ident) => {
        number!($name, Flags, u8, $place)
    };
}

macro_rules! float {
    ($name:literal, $($place:tt).+) => { number!($name, Float, f32, $($place).+) };
}

/// How many rows a list has; the rows themselves may stand further on.
macro_rules! count {
    ($name:literal, $type:ty, $list:ident) => {
        Field {
            put: |row, _, to| {
                let count = row.$list.len() as $type;
                to.field($name, Kind::Plain, &count.to_be_bytes());
            },
            take: |row, _, from| {
                let count = <$type>::from_be_bytes(from.array());
                row.$list.resize_with(count as usize, Default::default);
            },
        }
    };
}

/// The rows of a list, each by the form's table of such rows.
macro_rules! rows {
    ($name:literal, $list:ident, $table:ident) => {
        Field {
            put: |row, form, to| {
                for (i, row) in row.$list.iter().enumerate() {
                    to.enter($name, i);
                    rows::put(row, form.$table, form, to);
                    to.leave();
                }
            },
            take: |row, form, from| {
                for row in &mut row.$list {
                    rows::take(row, form.$table, form, from);
                }
            },
        }
    };
}

pub(crate) use {count, flags, float, number, rows};
