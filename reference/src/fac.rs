//! The FAC (document 01, "MDI packet": FAC; ES 201 980, clauses 6.3.2 to 6.3.5).

use crate::bits::Bits;
use crate::crc::crc8;
use crate::output;
use crate::refusal::{refuse, Refusal, LONGEST_INPUT};

/// The fields.
pub const FIELDS: usize = 18;

pub const NAMES: [&str; FIELDS] = [
    "base flag",
    "identity",
    "RM flag",
    "spectrum occupancy",
    "interleaver depth",
    "MSC mode",
    "SDC mode",
    "number of services",
    "reconfiguration index",
    "last two channel bits",
    "service id",
    "short id",
    "audio CA",
    "language",
    "audio/data flag",
    "service descriptor",
    "data CA",
    "reserved",
];

/// Bits of the fields.
pub const WIDTHS: [u32; FIELDS] = [1, 2, 1, 3, 1, 2, 1, 4, 3, 2, 24, 2, 1, 4, 1, 5, 1, 6];

/// The place of the one field that has more bits than a byte.
pub const SERVICE_ID: usize = 10;

/// Bytes of a value: the fields and their check word.
pub const BYTES: usize = 9;

/// A FAC as it is handed in: any content.
#[derive(Debug, Clone, Copy, Default, PartialEq, Eq)]
pub struct Fac {
    pub base: u8,
    pub identity: u8,
    pub rm: u8,
    pub occupancy: u8,
    pub interleaver: u8,
    pub msc_mode: u8,
    pub sdc_mode: u8,
    pub services: u8,
    pub reconfiguration: u8,
    pub channel_bits: u8,
    pub service_id: u32,
    pub short_id: u8,
    pub audio_ca: u8,
    pub language: u8,
    pub audio_data: u8,
    pub descriptor: u8,
    pub data_ca: u8,
    pub reserved: u8,
}

impl Fac {
    /// The fields in order.
    pub fn fields(&self) -> [u32; FIELDS] {
        [
            self.base.into(),
            self.identity.into(),
            self.rm.into(),
            self.occupancy.into(),
            self.interleaver.into(),
            self.msc_mode.into(),
            self.sdc_mode.into(),
            self.services.into(),
            self.reconfiguration.into(),
            self.channel_bits.into(),
            self.service_id,
            self.short_id.into(),
            self.audio_ca.into(),
            self.language.into(),
            self.audio_data.into(),
            self.descriptor.into(),
            self.data_ca.into(),
            self.reserved.into(),
        ]
    }

    /// Of fields in order, which are bytes but for the service id.
    pub fn of(fields: [u32; FIELDS]) -> Fac {
        let byte = |place: usize| fields[place] as u8;
        Fac {
            base: byte(0),
            identity: byte(1),
            rm: byte(2),
            occupancy: byte(3),
            interleaver: byte(4),
            msc_mode: byte(5),
            sdc_mode: byte(6),
            services: byte(7),
            reconfiguration: byte(8),
            channel_bits: byte(9),
            service_id: fields[SERVICE_ID],
            short_id: byte(11),
            audio_ca: byte(12),
            language: byte(13),
            audio_data: byte(14),
            descriptor: byte(15),
            data_ca: byte(16),
            reserved: byte(17),
        }
    }

    pub fn has_too_large_a_field(&self) -> bool {
        let mut fields = self.fields().into_iter().zip(WIDTHS);
        fields.any(|(field, width)| field >= 1 << width)
    }

    pub fn is_served(&self) -> bool {
        let occupancy = self.occupancy != 6 && self.occupancy != 7;
        let msc_mode = self.msc_mode != 1 && self.msc_mode != 2;
        let services = self.services != 0b1011 && self.services != 0b1110;
        self.base != 1 && self.rm != 1 && occupancy && msc_mode && services
    }

    /// The value, with its check word, of a FAC whose fields are not too large.
    pub fn value(&self) -> Vec<u8> {
        let mut bits = Bits::default();
        for (field, width) in self.fields().into_iter().zip(WIDTHS) {
            bits.put(width, u64::from(field));
        }
        let mut value = bits.bytes();
        value.push(crc8(&value));
        value
    }

    /// The FAC in a value of the right length, whatever its check word.
    pub fn take(value: &[u8]) -> Fac {
        let mut bits = Bits::of(value);
        Fac::of(WIDTHS.map(|width| bits.take(width) as u32))
    }
}

/// Whether the check word of a value of the right length is that of its other bytes.
pub fn is_intact(value: &[u8]) -> bool {
    let (fields, check_word) = value.split_at(BYTES - 1);
    crc8(fields).to_be_bytes() == check_word
}

pub fn read(value: &[u8]) -> Result<Fac, Refusal> {
    refuse(1, value.len() > LONGEST_INPUT)?;
    refuse(5, value.len() != BYTES)?;
    refuse(7, !is_intact(value))?;
    let fac = Fac::take(value);
    refuse(9, !fac.is_served())?;
    Ok(fac)
}

pub fn write(fac: &Fac, output: &mut [u8]) -> Result<usize, Refusal> {
    refuse(6, fac.has_too_large_a_field())?;
    refuse(9, !fac.is_served())?;
    output::write(&fac.value(), output)
}

#[cfg(test)]
mod tests {
    use super::*;

    const KNOWN: [u8; 9] = [0x06, 0x0A, 0x0E, 0x1C, 0x23, 0x80, 0xA0, 0x80, 0x5B];

    fn known() -> Fac {
        Fac {
            occupancy: 3,
            services: 0b0101,
            service_id: 0xE1C238,
            language: 5,
            descriptor: 1,
            ..Fac::default()
        }
    }

    fn refused<T>(number: u8) -> Result<T, Refusal> {
        Err(Refusal::number(number))
    }

    #[test]
    fn known_values() {
        let nothing = [0, 0, 0, 0, 0, 0, 0, 0, 0xE9];
        for (fac, value) in [(known(), KNOWN), (Fac::default(), nothing)] {
            let mut output = [9; 10];
            assert_eq!(write(&fac, &mut output), Ok(9));
            assert_eq!((&output[..9], output[9]), (&value[..], 9));
            assert_eq!(read(&value), Ok(fac));
        }
    }

    #[test]
    fn every_field_has_its_bits() {
        assert_eq!(WIDTHS.iter().sum::<u32>(), 64);
        let largest = Fac::of(WIDTHS.map(|width| (1 << width) - 1));
        assert!(!largest.has_too_large_a_field());
        assert_eq!(largest.value()[..8], [0xFF; 8]);
        for place in 0..FIELDS {
            let mut fields = known().fields();
            fields[place] = 1 << WIDTHS[place];
            assert_eq!(write(&Fac::of(fields), &mut []), refused(6));
            let mut fields = [0; FIELDS];
            fields[place] = 1;
            assert_eq!(Fac::of(fields).fields(), fields);
            assert_eq!(Fac::take(&Fac::of(fields).value()), Fac::of(fields));
            let ones: u32 = Fac::of(fields).value()[..8]
                .iter()
                .map(|byte| byte.count_ones())
                .sum();
            assert_eq!(ones, 1);
        }
    }

    #[test]
    fn what_is_served() {
        for (place, allowed) in [
            (0, &[0][..]),
            (2, &[0]),
            (3, &[0, 1, 2, 3, 4, 5]),
            (5, &[0, 3]),
            (7, &[0, 1, 2, 3, 4, 5, 6, 7, 8, 9, 10, 12, 13, 15]),
            (1, &[0, 1, 2, 3]),
            (17, &[0, 1, 62, 63]),
        ] {
            for value in [0, 1, 2, 3, 4, 5, 6, 7, 8, 9, 10, 11, 12, 13, 14, 15, 62, 63] {
                let mut fields = known().fields();
                fields[place] = value;
                if value < 1 << WIDTHS[place] {
                    let fac = Fac::of(fields);
                    let served = allowed.contains(&value) || place == 17;
                    assert_eq!(read(&fac.value()).is_ok(), served);
                    assert_eq!(write(&fac, &mut [0; 9]).is_ok(), served);
                }
            }
        }
    }

    #[test]
    fn order_of_refusals() {
        let mut value = KNOWN;
        for length in [0, 8, 10, LONGEST_INPUT] {
            assert_eq!(read(&vec![0xFF; length]), refused(5));
        }
        assert_eq!(read(&vec![0xFF; LONGEST_INPUT + 1]), refused(1));
        value[0] |= 0x80;
        assert_eq!(read(&value), refused(7));
        value[8] = crc8(&value[..8]);
        assert_eq!(read(&value), refused(9));
        let mut fac = Fac { rm: 1, ..known() };
        assert_eq!(write(&fac, &mut []), refused(9));
        fac.identity = 4;
        assert_eq!(write(&fac, &mut []), refused(6));
        assert_eq!(write(&known(), &mut [0; 8]), refused(1));
    }
}
