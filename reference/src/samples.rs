//! Messages for the tests: right as they are made, then changed field by field.

/// A tag and fields with their raw values, written compactly.
#[derive(Clone)]
pub struct Sample {
    tag: &'static str,
    fields: Vec<(String, String)>,
}

pub const CALLER: &str = "\"net119:u1@nishi.caller\"";
pub const CALLEE: &str = "\"net119:fire@kita.callee\"";
/// The particulars of an INVITE's Caller and of a NOTIFY's location.
pub const CALLER_INFORMATION: &str = r#"{"region":"nishi","uid":"u1","email":"u1@mail.nx","last-modified":"2024-02-29T09:00:00+0900","personal-information":{"name":"A","address":"B","sex":"male","birthday":"1982-01-19","location":{"latitude":35.66,"longitude":139.75}},"region-information":{"name":"Nishi","tel":"119"}}"#;
pub const LIVE_LOCATION: &str = r#"{"provider":"gps","latitude":35.66,"longitude":139.75,"accuracy":30,"date":"2024-02-29T23:59:59+0900"}"#;
const HOP: &str = r#"{"host":"h1.nx","destination":"kita.callee","organization":"nx"}"#;

impl Sample {
    /// These fields, then a Via.
    fn new(tag: &'static str, fields: &[(&str, &str)]) -> Sample {
        let own = |(name, value): &(&str, &str)| (name.to_string(), value.to_string());
        let sample = Sample {
            tag,
            fields: fields.iter().map(own).collect(),
        };
        sample.with_via(1, &[])
    }

    fn exchange(tag: &'static str, cseq: &str) -> Sample {
        let desk = cseq.ends_with("REFER") || cseq.ends_with("CALLBACK");
        let (from, to) = if desk {
            (CALLEE, CALLER)
        } else {
            (CALLER, CALLEE)
        };
        Sample::new(
            tag,
            &[
                ("CSeq", &format!("\"{cseq}\"")),
                ("To", to),
                ("From", from),
                ("Call-ID", "\"A1.nx\""),
                ("Date", "\"2024-02-29T23:59:59+0900\""),
            ],
        )
    }

    /// A request with all that its method needs, from the side that may send it.
    pub fn request(cseq: &str) -> Sample {
        let sample = Sample::exchange("request", cseq);
        let fields: &[(&str, &str)] = match cseq.split(' ').next_back() {
            Some("INVITE") => &[
                ("Session-ID", "\"S1.nx\""),
                ("Call-Mode", "\"emergency\""),
                ("Call-Test", "0"),
                ("Secure-Call", "true"),
                ("Rescuee", "\"caller\""),
                ("Request-Service", "\"ambulance\""),
                ("Language", "\"ja\""),
                ("Locations", "[]"),
                ("User-Agent", "\"\""),
                ("Caller", CALLER_INFORMATION),
            ],
            Some("MESSAGE") => &[
                ("Message-ID", "\"caller-nishi-1\""),
                ("Content-Type", "\"text/plain\""),
                ("Body", "\"yes\""),
            ],
            Some("NOTIFY") => &[
                ("Content-Type", "\"message/vnd.net119.presence\""),
                ("Body", "\"online\""),
            ],
            Some("REFER") => &[("Refer-To", "\"sakai\""), ("Referred-By", "\"kita\"")],
            _ => &[],
        };
        fields
            .iter()
            .fold(sample, |sample, (name, value)| sample.with(name, value))
    }

    pub fn response(cseq: &str, status: &str) -> Sample {
        Sample::exchange("response", cseq).with("Status", &format!("\"{status}\""))
    }

    pub fn ping() -> Sample {
        Sample::new(
            "ping",
            &[
                ("Destination", "\"kita.callee\""),
                ("Date", "\"2024-02-29T23:59:59+0900\""),
            ],
        )
    }

    pub fn pong() -> Sample {
        Sample::new(
            "pong",
            &[
                ("Responded-By", "\"kita.callee\""),
                ("Status", "\"available\""),
                ("Date", "\"2024-02-29T23:59:59+0900\""),
            ],
        )
    }

    /// Puts a raw value in the place of the field's, or at the end.
    pub fn with(mut self, name: &str, value: &str) -> Sample {
        match self.fields.iter_mut().find(|(known, _)| known == name) {
            Some((_, old)) => *old = value.to_string(),
            None => self.fields.push((name.to_string(), value.to_string())),
        }
        self
    }

    /// Puts a field at the end, even one that is there.
    pub fn and(mut self, name: &str, value: &str) -> Sample {
        self.fields.push((name.to_string(), value.to_string()));
        self
    }

    pub fn without(mut self, name: &str) -> Sample {
        self.fields.retain(|(known, _)| known != name);
        self
    }

    /// The same from the caller to the callee.
    pub fn sent_by_caller(self) -> Sample {
        self.with("From", CALLER).with("To", CALLEE)
    }

    /// The same from the callee to the caller.
    pub fn sent_by_callee(self) -> Sample {
        self.with("From", CALLEE).with("To", CALLER)
    }

    /// The same for another call.
    pub fn of_call(self, call_id: &str) -> Sample {
        self.with("Call-ID", &format!("\"{call_id}\""))
    }

    /// A Via of so many like entries, then these.
    pub fn with_via(self, plain: usize, then: &[&str]) -> Sample {
        let mut entries = vec![HOP; plain];
        entries.extend(then);
        self.with("Via", &format!("[{}]", entries.join(",")))
    }

    pub fn text(&self) -> String {
        let members: Vec<String> = self
            .fields
            .iter()
            .map(|(name, value)| format!("\"{name}\":{value}"))
            .collect();
        format!("[\"{}\",{{{}}}]", self.tag, members.join(","))
    }

    pub fn bytes(&self) -> Vec<u8> {
        self.text().into_bytes()
    }

    /// The message grown to a length by an unknown field.
    pub fn of_length(self, length: usize) -> Sample {
        let short = self.clone().with("x-pad", "\"\"").text().len();
        self.with("x-pad", &format!("\"{}\"", "a".repeat(length - short)))
    }
}
