//! The question: three bytes that name who, which item and which permission.

use super::rules::Rules;

#[derive(Clone, Copy, Debug, PartialEq, Eq)]
pub enum Who {
    StartingSession(u32),
    SessionsOf(u32),
    AnySession,
}

#[derive(Clone, Copy, Debug, PartialEq, Eq)]
pub enum Which {
    StartingItem(u32),
    AnyItem,
}

#[derive(Clone, Copy, Debug, PartialEq, Eq)]
pub struct Question {
    pub who: Who,
    pub which: Which,
    pub permission: u32,
}

/// The question of these bytes; 10 if it names what is absent or breaks its layout.
pub fn question(rules: &Rules, bytes: &[u8]) -> Result<Question, u32> {
    let (first, second, third) = match *bytes {
        [first, second, third] => (first, second, third),
        _ => return Err(10),
    };
    let who_number = u32::from(first % 64);
    let who = match first / 64 {
        0 if (who_number as usize) < rules.sessions.len() => Who::StartingSession(who_number),
        1 if (who_number as usize) < rules.users.len() => Who::SessionsOf(who_number),
        2 if who_number == 0 => Who::AnySession,
        _ => return Err(10),
    };
    let item_number = u32::from(second % 64);
    let which = match second / 64 {
        0 if (item_number as usize) < rules.items.len() => Which::StartingItem(item_number),
        2 if item_number == 0 => Which::AnyItem,
        _ => return Err(10),
    };
    let permission = u32::from(third / 16);
    if permission >= rules.permissions || third % 16 != 0 {
        return Err(10);
    }
    Ok(Question { who, which, permission })
}

impl Question {
    /// Whether a grant fits: its actor's number and user, its target's number, its permission.
    pub fn fits(&self, actor: u64, user: u32, target: u64, permission: u64) -> bool {
        let who = match self.who {
            Who::StartingSession(number) => actor == u64::from(number),
            Who::SessionsOf(number) => user == number,
            Who::AnySession => true,
        };
        let which = match self.which {
            Which::StartingItem(number) => target == u64::from(number),
            Which::AnyItem => true,
        };
        who && which && permission == u64::from(self.permission)
    }
}
