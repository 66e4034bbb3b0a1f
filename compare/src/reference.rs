//! The Rust's side: `policy.rs`, unchanged, from APPENDFS_SRC, among the modules that it names. serde's traits are empty
//! substitutes, a store has only a name and a mode, and durations follow the documents' rule (`clock`, below) in place of jiff.

/// Substitutes for the traits of serde that `policy.rs` implements; nothing here calls them.
#[allow(dead_code)]
pub mod serde {
    pub mod de {
        pub trait Error: Sized {
            fn custom<T: std::fmt::Display>(message: T) -> Self;
        }
    }
    pub trait Deserializer<'de>: Sized {
        type Error: de::Error;
    }
    pub trait Deserialize<'de>: Sized {
        fn deserialize<D: Deserializer<'de>>(deserializer: D) -> Result<Self, D::Error>;
    }
    pub trait Serializer: Sized {
        type Ok;
        type Error;
        fn serialize_str(self, text: &str) -> Result<Self::Ok, Self::Error>;
    }
    pub trait Serialize {
        fn serialize<S: Serializer>(&self, serializer: S) -> Result<S::Ok, S::Error>;
    }
    impl<'de> Deserialize<'de> for String {
        fn deserialize<D: Deserializer<'de>>(_: D) -> Result<Self, D::Error> {
            Err(de::Error::custom("not in the comparison"))
        }
    }
}

/// The two functions of the Rust's `clock.rs` that `policy.rs` calls, by document 01's rule for durations as document 02's Job 1
/// amends it.
pub mod clock {
    use std::fmt::Write;
    use std::time::Duration;

    /// The units, from the largest to the smallest, and the milliseconds of each. Weeks are read but not printed.
    const UNITS: [(&str, u64); 6] =
        [("w", 604_800_000), ("d", 86_400_000), ("h", 3_600_000), ("m", 60_000), ("s", 1_000), ("ms", 1)];

    /// Whether a character is a blank: 9 to 13 or 32.
    fn is_blank(c: char) -> bool {
        matches!(c, '\t'..='\r' | ' ')
    }

    /// One or more parts with optional blanks around them: 1 to 9 digits, optional blanks and a unit each, from larger units to smaller ones.
    pub fn parse_duration(s: &str) -> Result<Duration, String> {
        let fault = || Err(format!("'{s}' is no duration"));
        let mut rest = s.trim_matches(is_blank);
        let mut allowed = &UNITS[..];
        let mut total = 0;
        if rest.is_empty() {
            return fault();
        }
        while !rest.is_empty() {
            let digits = rest.bytes().take_while(u8::is_ascii_digit).count();
            if digits == 0 || digits > 9 {
                return fault();
            }
            let (number, behind) = rest.split_at(digits);
            let behind = behind.trim_start_matches(is_blank);
            let letters = behind.bytes().take_while(u8::is_ascii_lowercase).count();
            let (unit, behind) = behind.split_at(letters);
            let Some(index) = allowed.iter().position(|known| known.0 == unit) else {
                return fault();
            };
            total += number.parse::<u64>().unwrap() * allowed[index].1;
            allowed = &allowed[index + 1..];
            rest = behind.trim_start_matches(is_blank);
        }
        Ok(Duration::from_millis(total))
    }

    /// The nonzero parts in the order of the units, beginning with days, without blanks; `0s` for none. It counts as the Rust's time
    /// in `compare/bench`, so it writes in place and allocates its answer alone.
    pub fn format_duration(d: Duration) -> String {
        let mut left = d.as_millis() as u64;
        let mut text = String::new();
        for (unit, worth) in &UNITS[1..] {
            if left / worth > 0 {
                write!(text, "{}{unit}", left / worth).expect("a string takes any text");
            }
            left %= worth;
        }
        if text.is_empty() {
            "0s".to_string()
        } else {
            text
        }
    }
}

pub mod remote {
    /// Of the Rust's `config.rs`: its `RemoteMode`, which `compare/build.sh` takes out of it, and a store of a name and a mode.
    #[allow(dead_code)]
    pub mod config {
        include!(concat!(env!("COMPARE_OUT"), "/mode.rs"));

        #[derive(Clone, Debug)]
        pub struct ConfiguredRemote {
            pub name: String,
            pub mode: RemoteMode,
        }
    }

    /// The Rust's `policy.rs`, unchanged.
    #[allow(dead_code)]
    pub mod policy {
        use crate::serde;
        include!(concat!(env!("APPENDFS_SRC"), "/src/remote/policy.rs"));
    }
}
