//! Reading attributes: `user attribute role: one of {clerk, controller}`, `item attribute ledger: one of ledger`.

use crate::messages;
use crate::model::{Attribute, Class};
use crate::names::listed;
use crate::phrase;
use crate::reader::{Read, Reader};

const ATTRIBUTES: usize = 8;
const WIDEST: u32 = 8;

impl Reader {
    /// The attribute is there from its name on, so that a fault in its list causes no others.
    pub fn attribute(&mut self, class: Class) -> Read<()> {
        self.form = messages::attribute_form();
        let place = self.step();
        self.need("attribute")?;
        let named = self.name("a name")?;
        let first = self.rules.of(class).iter().find(|a| a.name == named.name).map(|a| a.place);
        let new = self.is_new("an attribute", &named, first);
        if let Some(holder) = self.rules.holders(class).first() {
            let line = holder.place.line;
            self.fault(place, messages::late_attribute(class.word()), messages::first_is(line));
        }
        let counted = new && self.counts(self.rules.of(class).len(), ATTRIBUTES, of_class(class), &named);
        if counted {
            let attribute = Attribute { place: named.place, name: named.name, set: false, list: None, size: 0, names: Vec::new() };
            self.rules.attributes[class as usize].push(attribute);
        }
        self.need(":")?;
        let set = self.kind()?;
        let (list, values) = self.list_used(set)?;
        if !counted {
            return Ok(());
        }
        if let Some(attribute) = self.rules.attributes[class as usize].last_mut() {
            (attribute.set, attribute.list, attribute.size, attribute.names) = (set, list, values.size, values.names);
        }
        self.width(class);
        Ok(())
    }

    /// `one of` or `set of`: whether it is a set.
    fn kind(&mut self) -> Read<bool> {
        if !self.sees_any(0, &["one", "set"]) {
            return Err(self.misplaced("`one of` or `set of`"));
        }
        let set = self.sees(0, "set");
        self.step();
        self.need("of")?;
        Ok(set)
    }

    /// The attributes of a class are at most 8 bits wide together.
    fn width(&mut self, class: Class) {
        let attributes = self.rules.of(class);
        let width: u32 = attributes.iter().map(Attribute::width).sum();
        let place = attributes.last().map_or(self.word().place, |a| a.place);
        let widths: Vec<String> = attributes.iter().map(|a| format!("{} {}", phrase::name(&a.name), a.width())).collect();
        if width > WIDEST && self.unread.add_over(class.word()) {
            let help = messages::widths(&listed(widths.iter().map(String::as_str)));
            self.fault(place, messages::too_wide(class.word(), width), help);
        }
    }
}

fn of_class(class: Class) -> &'static str {
    ["attributes of users", "attributes of sessions", "attributes of items"][class as usize]
}
