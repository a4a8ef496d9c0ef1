//! Values and value kinds (RULES.md section 9).

#[derive(Clone, Copy, Debug, PartialEq, Eq)]
pub enum Kind {
    Issue,
    Withdrawal,
    /// A third kind, for trying a claim under two accounts (14.3). It does
    /// not ship with the product.
    Free,
}

#[derive(Clone, Copy, Debug)]
pub enum Value {
    Issue { account: u16, device: u32, request: u32, key: u64, start: u64, end: u64 },
    Withdrawal { serial: u64 },
    /// Meaning: both fields. Always fit.
    Free { account: u16, claim: u32 },
}

const LONGEST_LIFETIME: u64 = 7_776_000;

impl Kind {
    pub fn parse(word: &str) -> Option<Kind> {
        match word {
            "issue" => Some(Kind::Issue),
            "withdrawal" => Some(Kind::Withdrawal),
            "free" => Some(Kind::Free),
            _ => None,
        }
    }

    pub fn name(self) -> &'static str {
        match self {
            Kind::Issue => "issue",
            Kind::Withdrawal => "withdrawal",
            Kind::Free => "free",
        }
    }

    /// The value with 0 in every field.
    pub fn zero(self) -> Value {
        match self {
            Kind::Issue => Value::Issue { account: 0, device: 0, request: 0, key: 0, start: 0, end: 0 },
            Kind::Withdrawal => Value::Withdrawal { serial: 0 },
            Kind::Free => Value::Free { account: 0, claim: 0 },
        }
    }

    /// A value is written as its fields in decimal, with commas.
    pub fn parse_value(self, word: &str) -> Option<Value> {
        let fields: Vec<&str> = word.split(',').collect();
        match (self, fields.as_slice()) {
            (Kind::Issue, [account, device, request, key, start, end]) => Some(Value::Issue {
                account: account.parse().ok()?,
                device: device.parse().ok()?,
                request: request.parse().ok()?,
                key: key.parse().ok()?,
                start: start.parse().ok()?,
                end: end.parse().ok()?,
            }),
            (Kind::Withdrawal, [serial]) => Some(Value::Withdrawal { serial: serial.parse().ok()? }),
            (Kind::Free, [account, claim]) => {
                Some(Value::Free { account: account.parse().ok()?, claim: claim.parse().ok()? })
            }
            _ => None,
        }
    }
}

impl Value {
    pub fn show(&self) -> String {
        match self {
            Value::Issue { account, device, request, key, start, end } => {
                format!("{account},{device},{request},{key},{start},{end}")
            }
            Value::Withdrawal { serial } => format!("{serial}"),
            Value::Free { account, claim } => format!("{account},{claim}"),
        }
    }

    // The four questions.

    /// Both have one and the same meaning.
    pub fn same(&self, other: &Value) -> bool {
        match (self, other) {
            (
                Value::Issue { account: a1, device: d1, request: r1, key: k1, start: s1, end: e1 },
                Value::Issue { account: a2, device: d2, request: r2, key: k2, start: s2, end: e2 },
            ) => a1 == a2 && d1 == d2 && r1 == r2 && k1 == k2 && s1 == s2 && e1 == e2,
            (Value::Withdrawal { serial: one }, Value::Withdrawal { serial: two }) => one == two,
            (Value::Free { account: a1, claim: c1 }, Value::Free { account: a2, claim: c2 }) => a1 == a2 && c1 == c2,
            _ => unreachable!("one panel has values of one kind"),
        }
    }

    pub fn fit(&self) -> bool {
        match self {
            Value::Issue { start, end, .. } => end > start && end - start <= LONGEST_LIFETIME,
            Value::Withdrawal { serial } => *serial != 0,
            Value::Free { .. } => true,
        }
    }

    pub fn same_claim(&self, other: &Value) -> bool {
        match (self, other) {
            (
                Value::Issue { account: a1, device: d1, request: r1, .. },
                Value::Issue { account: a2, device: d2, request: r2, .. },
            ) => a1 == a2 && d1 == d2 && r1 == r2,
            (Value::Withdrawal { serial: one }, Value::Withdrawal { serial: two }) => one == two,
            (Value::Free { claim: one, .. }, Value::Free { claim: two, .. }) => one == two,
            _ => unreachable!("one panel has values of one kind"),
        }
    }

    pub fn account(&self) -> u16 {
        match self {
            Value::Issue { account, .. } => *account,
            // The serial divided by 2^48, rounded down.
            Value::Withdrawal { serial } => (serial / 281_474_976_710_656) as u16,
            Value::Free { account, .. } => *account,
        }
    }
}
