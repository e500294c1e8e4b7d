//! Bytes to fields: heads, numbers, faults and their places, and the field of a certificate.

/// Where a fault is.
#[derive(Clone, Copy, Debug, PartialEq, Eq)]
pub enum Place {
    Offset(usize),
    Column(usize),
    Row(usize),
}

/// A refusal: the number of the fault and its place.
#[derive(Clone, Copy, Debug, PartialEq, Eq)]
pub struct Fault {
    pub number: u8,
    pub place: Place,
}

impl Fault {
    pub fn at_offset(number: u8, offset: usize) -> Self {
        Fault { number, place: Place::Offset(offset) }
    }

    pub fn at_column(number: u8, column: usize) -> Self {
        Fault { number, place: Place::Column(column) }
    }

    pub fn at_row(number: u8, row: usize) -> Self {
        Fault { number, place: Place::Row(row) }
    }
}

/// One whole field and the offset of its tag byte.
#[derive(Clone, Copy, Debug, PartialEq, Eq)]
pub struct Field<'a> {
    pub offset: usize,
    pub tag: u8,
    pub body: &'a [u8],
}

/// The first field of `bytes` and what follows it; none if head or body pass the end.
pub fn split_field(bytes: &[u8]) -> Option<(u8, &[u8], &[u8])> {
    let [tag, high, low, rest @ ..] = bytes else {
        return None;
    };
    let length = usize::from(u16::from_be_bytes([*high, *low]));
    let (body, rest) = rest.split_at_checked(length)?;
    Some((*tag, body, rest))
}

/// The fields of an input one after the other. A field that is not whole is fault 1, the last item.
pub struct Fields<'a> {
    offset: usize,
    rest: &'a [u8],
}

impl<'a> Fields<'a> {
    pub fn of(input: &'a [u8]) -> Self {
        Fields { offset: 0, rest: input }
    }
}

impl<'a> Iterator for Fields<'a> {
    type Item = Result<Field<'a>, Fault>;

    fn next(&mut self) -> Option<Self::Item> {
        if self.rest.is_empty() {
            return None;
        }
        let offset = self.offset;
        match split_field(self.rest) {
            Some((tag, body, rest)) => {
                self.offset += 3 + body.len();
                self.rest = rest;
                Some(Ok(Field { offset, tag, body }))
            }
            None => {
                self.rest = &[];
                Some(Err(Fault::at_offset(1, offset)))
            }
        }
    }
}

/// Takes big-endian numbers from the front of a body. The caller has judged the length.
pub struct Numbers<'a>(pub &'a [u8]);

impl Numbers<'_> {
    fn take<const N: usize>(&mut self) -> [u8; N] {
        let (front, rest) = self.0.split_first_chunk::<N>().expect("the length of the body was judged");
        self.0 = rest;
        *front
    }

    pub fn u8(&mut self) -> u8 {
        u8::from_be_bytes(self.take())
    }

    pub fn u16(&mut self) -> u16 {
        u16::from_be_bytes(self.take())
    }

    pub fn u32(&mut self) -> u32 {
        u32::from_be_bytes(self.take())
    }

    pub fn i32(&mut self) -> i32 {
        i32::from_be_bytes(self.take())
    }

    pub fn i64(&mut self) -> i64 {
        i64::from_be_bytes(self.take())
    }

    pub fn is_empty(&self) -> bool {
        self.0.is_empty()
    }
}

/// The bytes of one field. The body has at most 65,535 bytes.
pub fn field_bytes(tag: u8, body: &[u8]) -> Vec<u8> {
    let length = u16::try_from(body.len()).expect("a body has at most 65,535 bytes");
    let mut bytes = vec![tag];
    bytes.extend(length.to_be_bytes());
    bytes.extend(body);
    bytes
}

pub const SCHEDULE: u8 = 20;
pub const MULTIPLIERS: u8 = 21;

/// The label and the value bytes of a certificate of the tag asked for.
pub fn read_certificate(input: &[u8], asked: u8) -> Result<(u32, &[u8]), Fault> {
    let fault = |number| Err(Fault::at_offset(number, 0));
    let Some((tag, body, rest)) = split_field(input) else {
        return fault(1);
    };
    if tag != asked {
        return fault(2);
    }
    match body.split_first_chunk::<4>() {
        Some((label, values)) if rest.is_empty() => Ok((u32::from_be_bytes(*label), values)),
        _ => fault(4),
    }
}

/// The field of a schedule.
pub fn schedule_field(label: u32, numbers: &[i32]) -> Vec<u8> {
    let mut body = label.to_be_bytes().to_vec();
    numbers.iter().for_each(|number| body.extend(number.to_be_bytes()));
    field_bytes(SCHEDULE, &body)
}

/// The field of a set of multipliers.
pub fn multipliers_field(label: u32, numbers: &[i64]) -> Vec<u8> {
    let mut body = label.to_be_bytes().to_vec();
    numbers.iter().for_each(|number| body.extend(number.to_be_bytes()));
    field_bytes(MULTIPLIERS, &body)
}

#[cfg(test)]
mod tests {
    use super::*;

    #[test]
    fn fields_and_their_offsets() {
        let input = [5, 0, 1, 9, 7, 0, 0, 8, 0];
        let fields: Vec<_> = Fields::of(&input).collect();
        assert_eq!(
            fields,
            [
                Ok(Field { offset: 0, tag: 5, body: &[9] }),
                Ok(Field { offset: 4, tag: 7, body: &[] }),
                Err(Fault::at_offset(1, 7)),
            ]
        );
    }

    #[test]
    fn certificates() {
        let fault = |number| Err(Fault::at_offset(number, 0));
        assert_eq!(read_certificate(&[], 20), fault(1));
        assert_eq!(read_certificate(&[20, 0], 20), fault(1));
        assert_eq!(read_certificate(&[20, 0, 4, 0, 0, 0], 20), fault(1));
        assert_eq!(read_certificate(&[21, 0, 1, 0, 9], 20), fault(2));
        assert_eq!(read_certificate(&[20, 0, 3, 0, 0, 0], 20), fault(4));
        assert_eq!(read_certificate(&[20, 0, 4, 0, 0, 1, 2, 9], 20), fault(4));
        assert_eq!(read_certificate(&[20, 0, 5, 0, 0, 1, 2, 9], 20), Ok((258, &[9][..])));
    }

    #[test]
    fn written_certificates_are_read_again() {
        let field = multipliers_field(7, &[-1]);
        assert_eq!(field, [21, 0, 12, 0, 0, 0, 7, 255, 255, 255, 255, 255, 255, 255, 255]);
        assert_eq!(read_certificate(&field, 21), Ok((7, &[255; 8][..])));
        assert_eq!(schedule_field(1, &[258]), [20, 0, 8, 0, 0, 0, 1, 0, 0, 1, 2]);
    }
}
