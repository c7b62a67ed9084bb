//! Reading a rule file, field by field, with a count of the bits that this takes.

use super::formula::judge_node;
use super::rules::{meanings, size_agrees, width, Attribute, Node, Owned, Rules, ALLOW, ITEM, SESSION, USER};
use super::value::decode_one;

/// A file and the position of the next bit. No bit is passed over and none is taken twice, so the position is also how
/// many bits were taken.
struct Reader<'a> {
    bytes: &'a [u8],
    position: usize,
}

impl Reader<'_> {
    /// The next field, its first bit the most significant one. If it runs past the end, what is left is taken, and the
    /// number is 1.
    fn field(&mut self, width: u32) -> Result<u32, u32> {
        let end = self.position + width as usize;
        if width > 0 && end > self.bytes.len() * 8 {
            self.position = self.bytes.len() * 8;
            return Err(1);
        }
        let mut number = 0;
        while self.position < end {
            let byte = self.bytes[self.position / 8];
            let bit = (byte >> (7 - self.position % 8)) & 1;
            number = number * 2 + u32::from(bit);
            self.position += 1;
        }
        Ok(number)
    }

    /// A head count.
    fn count(&mut self, width: u32, least: u32, most: u32) -> Result<u32, u32> {
        let count = self.field(width)?;
        if count < least || count > most {
            return Err(2);
        }
        Ok(count)
    }

    /// Bits that must be zero.
    fn spare(&mut self, width: u32) -> Result<(), u32> {
        if self.field(width)? != 0 {
            return Err(3);
        }
        Ok(())
    }

    /// An attribute; its list number is judged by the attributes before it, of all classes, once it is read.
    fn attribute(&mut self, earlier: &[Attribute]) -> Result<Attribute, u32> {
        let set = self.field(1)? == 1;
        let size = self.field(5)?;
        let most = if set { 8 } else { 16 };
        if size < 1 || size > most {
            return Err(4);
        }
        let attribute = Attribute { set, size, list: self.field(5)? };
        if !size_agrees(earlier, &attribute) {
            return Err(18);
        }
        self.spare(1)?;
        Ok(attribute)
    }

    /// The attributes of one class, which join those of the classes before it; its width is judged after its last one.
    fn class(&mut self, count: u32, earlier: &mut Vec<Attribute>) -> Result<Vec<Attribute>, u32> {
        let first = earlier.len();
        for _ in 0..count {
            let attribute = self.attribute(earlier)?;
            earlier.push(attribute);
        }
        let attributes = earlier[first..].to_vec();
        if width(&attributes) > 8 {
            return Err(5);
        }
        Ok(attributes)
    }

    /// A holder's value; each attribute's part of it is a field of its own.
    fn value(&mut self, attributes: &[Attribute]) -> Result<u32, u32> {
        let mut value = 0;
        for attribute in attributes {
            let code = self.field(attribute.width())?;
            if decode_one(attribute, u64::from(code)).is_none() {
                return Err(6);
            }
            value = (value << attribute.width()) + code;
        }
        Ok(value)
    }

    fn starting_session(&mut self, users: u32, attributes: &[Attribute]) -> Result<Owned, u32> {
        let user = self.field(4)?;
        if user >= users {
            return Err(7);
        }
        Ok(Owned { user, value: self.value(attributes)? })
    }

    /// A formula; each node is judged once its 20 bits are read.
    fn formula(&mut self, number: usize, attributes: &[Vec<Attribute>; 3]) -> Result<Vec<Node>, u32> {
        let count = self.field(8)?;
        if count < 1 || count > 64 {
            return Err(8);
        }
        let mut nodes = Vec::new();
        for place in 0..count {
            let bits = self.field(20)?;
            let node = Node { operator: bits / 65536, a: bits / 256 % 256, b: bits % 256 };
            judge_node(attributes, number, place, &node)?;
            nodes.push(node);
        }
        Ok(nodes)
    }

    /// The filling bits of the last byte, which are one field; nothing may follow them. What follows is not taken.
    fn end(&mut self) -> Result<(), u32> {
        let filling = (8 - self.position % 8) % 8;
        self.spare(filling as u32)?;
        if self.position < self.bytes.len() * 8 {
            return Err(3);
        }
        Ok(())
    }
}

/// All fields, in their order.
fn rules(reader: &mut Reader) -> Result<Rules, u32> {
    let mut attribute_counts = [0; 3];
    for count in &mut attribute_counts {
        *count = reader.count(4, 0, 8)?;
    }
    let user_count = reader.count(5, 1, 16)?;
    let session_count = reader.count(6, 0, 32)?;
    let item_count = reader.count(6, 0, 32)?;
    let permissions = reader.count(4, 1, 8)?;
    reader.spare(7)?;
    let mut earlier = Vec::new();
    let user_attributes = reader.class(attribute_counts[USER], &mut earlier)?;
    let session_attributes = reader.class(attribute_counts[SESSION], &mut earlier)?;
    let item_attributes = reader.class(attribute_counts[ITEM], &mut earlier)?;
    let attributes = [user_attributes, session_attributes, item_attributes];
    let mut users = Vec::new();
    for _ in 0..user_count {
        users.push(reader.value(&attributes[USER])?);
    }
    let mut sessions = Vec::new();
    for _ in 0..session_count {
        sessions.push(reader.starting_session(user_count, &attributes[SESSION])?);
    }
    let mut items = Vec::new();
    for _ in 0..item_count {
        items.push(reader.value(&attributes[ITEM])?);
    }
    let mut formulas = Vec::new();
    for number in 0..ALLOW + permissions as usize {
        formulas.push(reader.formula(number, &attributes)?);
    }
    reader.end()?;
    let meanings = [meanings(&attributes[USER]), meanings(&attributes[SESSION]), meanings(&attributes[ITEM])];
    Ok(Rules { attributes, users, sessions, items, permissions, formulas, meanings })
}

/// The rules of a file or the number of its first fault, and how many bits were taken until that was known.
pub fn read_bits(bytes: &[u8]) -> (Result<Rules, u32>, u64) {
    let mut reader = Reader { bytes, position: 0 };
    let rules = rules(&mut reader);
    (rules, reader.position as u64)
}

/// The rules of a file, or the number of its first fault.
pub fn read(bytes: &[u8]) -> Result<Rules, u32> {
    read_bits(bytes).0
}
