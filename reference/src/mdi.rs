//! MDI packets (document 01, "MDI packet"; TS 102 820, clauses 5.1 to 5.3).

use crate::clock::{self, Timestamp};
use crate::crc::crc16;
use crate::description::{self, Description, SLOTS};
use crate::fac::{self, Fac};
use crate::items::{self, Item, Name};
use crate::output;
use crate::refusal::{refuse, Refusal, LONGEST_INPUT};

/// The most bytes of SDC data.
pub const SDC_DATA: usize = 1_024;

const PROTOCOL: &[u8; 4] = b"DMDI";
const HIGHEST_ROBUSTNESS: u8 = 3;
const HIGHEST_AFS: u8 = 15;
/// The names of the four streams.
pub const STREAMS: [Name; SLOTS] = [*b"str0", *b"str1", *b"str2", *b"str3"];

#[derive(Debug, Clone, Copy, PartialEq, Eq)]
pub struct Sdc {
    pub afs: u8,
    /// The number of data bytes.
    pub length: u64,
}

/// A record as it is handed in: any content.
#[derive(Debug, Clone, PartialEq, Eq)]
pub struct Record {
    pub count: u32,
    pub fac: Fac,
    pub sdc: Option<Sdc>,
    /// The SDC data, and zeros behind.
    pub sdc_data: [u8; SDC_DATA],
    pub description: Description,
    pub robustness: u8,
    pub timestamp: Option<Timestamp>,
}

/// Whether an item's length stands in the table; that of an unknown one is any.
fn is_allowed(item: &Item) -> bool {
    let whole = item.bits.is_multiple_of(8);
    match &item.name {
        b"*ptr" | b"tist" => item.bits == 64,
        b"dlfc" => item.bits == 32,
        b"fac_" => item.bits == 72,
        b"sdc_" => whole && (item.bits == 0 || (24..=8_216).contains(&item.bits)),
        b"sdci" => [32, 56, 80, 104].contains(&item.bits),
        b"robm" => item.bits == 8,
        name if STREAMS.contains(name) => whole,
        _ => true,
    }
}

pub fn read(packet: &[u8]) -> Result<Record, Refusal> {
    let items = items::read(packet)?; // 1, 2, 3
    let value = |name| items::value(&items, name);
    let required = |name| value(name).ok_or(Refusal::number(4));
    let (pointer, count) = (required(b"*ptr")?, required(b"dlfc")?);
    let (fac, sdci, robustness) = (required(b"fac_")?, required(b"sdci")?, required(b"robm")?);
    refuse(5, !items.iter().all(is_allowed))?;
    refuse(6, pointer[..4] != *PROTOCOL || pointer[4..6] != [0, 0])?;
    refuse(6, robustness[0] > HIGHEST_ROBUSTNESS)?;
    let timestamp = value(b"tist").map(clock::read).transpose()?; // 6
    refuse(7, !fac::is_intact(fac))?;
    let sdc = value(b"sdc_").filter(|sdc| !sdc.is_empty());
    refuse(8, !sdc.is_none_or(sdc_is_intact))?;
    let fac = Fac::take(fac);
    refuse(9, !fac.is_served())?;
    let description = description::read_value(fac.msc_mode, sdci)?; // 10
    for (name, stream) in STREAMS.iter().zip(description.streams) {
        let length = value(name).unwrap_or(&[]).len();
        refuse(11, length != stream.length())?;
    }
    let mut sdc_data = [0; SDC_DATA];
    let sdc = sdc.map(|sdc| {
        let data = &sdc[1..sdc.len() - 2];
        sdc_data[..data.len()].copy_from_slice(data);
        Sdc {
            afs: sdc[0],
            length: data.len() as u64,
        }
    });
    Ok(Record {
        count: u32::from_be_bytes([count[0], count[1], count[2], count[3]]),
        fac,
        sdc,
        sdc_data,
        description,
        robustness: robustness[0],
        timestamp,
    })
}

/// Whether four zero bits come first and the check word at the end is that of the bytes before it.
fn sdc_is_intact(value: &[u8]) -> bool {
    let (covered, check_word) = value.split_at(value.len() - 2);
    covered[0] <= HIGHEST_AFS && crc16(covered).to_be_bytes() == check_word
}

/// The bytes of a stream, as a part of the packet: none where the packet is refused, the stream absent or its
/// number too high.
pub fn stream(packet: &[u8], number: u64) -> &[u8] {
    if read(packet).is_err() || number >= SLOTS as u64 {
        return &[];
    }
    let items = items::read(packet).unwrap_or_default();
    items::value(&items, &STREAMS[number as usize]).unwrap_or(&[])
}

pub fn write(
    record: &Record,
    streams: [&[u8]; SLOTS],
    output: &mut [u8],
) -> Result<usize, Refusal> {
    refuse(1, streams.iter().any(|bytes| bytes.len() > LONGEST_INPUT))?;
    let sdc_length = record.sdc.map_or(0, |sdc| sdc.length);
    refuse(5, sdc_length > SDC_DATA as u64)?;
    let (data, behind) = record.sdc_data.split_at(sdc_length as usize);
    refuse(6, record.fac.has_too_large_a_field())?;
    refuse(6, record.sdc.is_some_and(|sdc| sdc.afs > HIGHEST_AFS))?;
    refuse(6, behind.iter().any(|byte| *byte != 0))?;
    refuse(6, record.description.has_too_large_a_field())?;
    refuse(6, record.robustness > HIGHEST_ROBUSTNESS)?;
    record.timestamp.map_or(Ok(()), |stamp| stamp.check())?; // 6
    refuse(9, !record.fac.is_served())?;
    record.description.check(record.fac.msc_mode)?; // 10
    for (bytes, stream) in streams.iter().zip(record.description.streams) {
        refuse(11, bytes.len() != stream.length())?;
    }
    let pointer = [&PROTOCOL[..], &[0; 4]].concat();
    let mut packet = items::whole(b"*ptr", &pointer);
    packet.extend(items::whole(b"dlfc", &record.count.to_be_bytes()));
    packet.extend(items::whole(b"fac_", &record.fac.value()));
    if let Some(sdc) = record.sdc {
        packet.extend(items::whole(b"sdc_", &sdc_value(sdc.afs, data)));
    }
    packet.extend(items::whole(b"sdci", &record.description.value()));
    packet.extend(items::whole(b"robm", &[record.robustness]));
    for (name, bytes) in STREAMS.iter().zip(streams) {
        if !bytes.is_empty() {
            packet.extend(items::whole(name, bytes));
        }
    }
    if let Some(timestamp) = record.timestamp {
        packet.extend(items::whole(b"tist", &timestamp.value()));
    }
    output::write(&packet, output)
}

/// The AFS index, the data and the check word.
pub fn sdc_value(afs: u8, data: &[u8]) -> Vec<u8> {
    let mut value = [&[afs], data].concat();
    value.extend(crc16(&value).to_be_bytes());
    value
}

#[cfg(test)]
mod tests {
    use super::*;
    use crate::calls::mdi_drafts::{v0, Draft};

    fn refused<T>(number: u8, place: u64) -> Result<T, Refusal> {
        Err(Refusal { number, place })
    }

    const V0: [u8; 103] = [
        0x2A, 0x70, 0x74, 0x72, 0, 0, 0, 0x40, 0x44, 0x4D, 0x44, 0x49, 0, 0, 0, 0, // *ptr
        0x64, 0x6C, 0x66, 0x63, 0, 0, 0, 0x20, 0, 0, 0, 7, // dlfc
        0x66, 0x61, 0x63, 0x5F, 0, 0, 0, 0x48, // fac_
        0x06, 0x0A, 0x0E, 0x1C, 0x23, 0x80, 0xA0, 0x80, 0x5B, //
        0x73, 0x64, 0x63, 0x5F, 0, 0, 0, 0x18, 0x00, 0x1E, 0x0F, // sdc_
        0x73, 0x64, 0x63, 0x69, 0, 0, 0, 0x20, 0, 0, 0, 2, // sdci
        0x72, 0x6F, 0x62, 0x6D, 0, 0, 0, 8, 1, // robm
        0x73, 0x74, 0x72, 0x30, 0, 0, 0, 0x10, 0xAB, 0xCD, // str0
        0x74, 0x69, 0x73, 0x74, 0, 0, 0, 0x40, 0, 0x14, 0, 0, 0, 0, 5, 0x90, // tist
    ];

    fn known() -> Record {
        let mut description = Description {
            count: 1,
            ..Description::default()
        };
        description.streams[0].part_b = 2;
        Record {
            count: 7,
            fac: Fac {
                occupancy: 3,
                services: 0b0101,
                service_id: 0xE1C238,
                language: 5,
                descriptor: 1,
                ..Fac::default()
            },
            sdc: Some(Sdc { afs: 0, length: 0 }),
            sdc_data: [0; SDC_DATA],
            description,
            robustness: 1,
            timestamp: Some(Timestamp {
                utco: 5,
                seconds: 1,
                milliseconds: 400,
            }),
        }
    }

    const STREAM: [&[u8]; SLOTS] = [&[0xAB, 0xCD], &[], &[], &[]];

    #[test]
    fn v0_read_and_written() {
        assert_eq!(v0().bytes(), V0);
        assert_eq!(read(&V0), Ok(known()));
        let mut output = [9; 104];
        assert_eq!(write(&known(), STREAM, &mut output), Ok(103));
        assert_eq!((&output[..103], output[103]), (&V0[..], 9));
        assert_eq!(stream(&V0, 0), [0xAB, 0xCD]);
        for number in [1, 3, 4, 1 << 32, u64::MAX] {
            assert_eq!(stream(&V0, number), []);
        }
        assert_eq!(stream(&V0[..102], 0), []);
    }

    #[test]
    fn sdc_values() {
        assert_eq!(sdc_value(0, &[]), [0x00, 0x1E, 0x0F]);
        assert_eq!(sdc_value(5, &[]), [0x05, 0x4E, 0xAA]);
        let data = [
            0x12, 0x01, 0x00, 0x04, 0x51, 0x03, 0xB0, 0x00, 0x01, 0x30, 0x00, 0x00, 0x00,
        ];
        let expected = [&[0x01], &data[..], &[0x44, 0x7B]].concat();
        assert_eq!(sdc_value(1, &data), expected);
        let packet = v0().with(b"sdc_", &expected).bytes();
        let record = read(&packet).unwrap();
        assert_eq!(record.sdc, Some(Sdc { afs: 1, length: 13 }));
        assert_eq!(record.sdc_data[..13], data);
        let mut output = vec![9; packet.len()];
        assert_eq!(write(&record, STREAM, &mut output), Ok(packet.len()));
        assert_eq!(output, packet);
    }

    /// The whole table of runs: number and place.
    #[test]
    fn table_of_runs() {
        for (change, draft, number, place) in crate::calls::mdi_drafts::table() {
            let found = read(&draft.bytes()).map(|_| ());
            let expected = match number {
                0 => Ok(()),
                _ => refused(number, place),
            };
            assert_eq!(found, expected, "{change}");
        }
    }

    /// Cut within an item it is refused at that item, and between items for the one that is missing.
    #[test]
    fn cut_at_each_byte() {
        let starts = [0, 16, 28, 45, 56, 68, 77, 87, 103];
        for end in 0..103 {
            let start = *starts.iter().rfind(|start| **start <= end).unwrap();
            let found = read(&V0[..end]).map(|_| ());
            let expected = match end - start {
                8.. => refused(2, start as u64),
                _ if end < 77 => refused(4, 0),
                _ if end < 87 => refused(11, 0),
                _ => Ok(()),
            };
            assert_eq!(found, expected, "{end}");
        }
    }

    #[test]
    fn order_of_writing() {
        let mut record = known();
        let long = vec![0; LONGEST_INPUT + 1];
        let wrong: [&[u8]; SLOTS] = [&[1], &[], &[], &[]];
        let too_long: [&[u8]; SLOTS] = [&[1], &[], &[], &long];
        let tried = |record: &Record, streams| write(record, streams, &mut [0; 102]);
        assert_eq!(tried(&record, STREAM), refused(1, 0));
        assert_eq!(tried(&record, wrong), refused(11, 0));
        record.description.level_a = 1;
        assert_eq!(tried(&record, wrong), refused(10, 0));
        record.fac.services = 0b1110;
        assert_eq!(tried(&record, wrong), refused(9, 0));
        record.sdc_data[0] = 1;
        assert_eq!(tried(&record, wrong), refused(6, 0));
        record.sdc = Some(Sdc {
            afs: 0,
            length: 1_025,
        });
        assert_eq!(tried(&record, wrong), refused(5, 0));
        assert_eq!(tried(&record, too_long), refused(1, 0));
    }

    #[test]
    fn fields_too_large() {
        let good = known();
        let spoiled: [fn(&mut Record); 12] = [
            |record| record.fac.identity = 4,
            |record| record.fac.msc_mode = 4,
            |record| record.sdc = Some(Sdc { afs: 16, length: 0 }),
            |record| record.sdc_data[0] = 1,
            |record| record.sdc_data[1_023] = 1,
            |record| (record.sdc, record.sdc_data[5]) = (None, 1),
            |record| record.description.level_b = 4,
            |record| record.description.streams[3].part_a = 4_096,
            |record| record.robustness = 4,
            |record| {
                record
                    .timestamp
                    .iter_mut()
                    .for_each(|stamp| stamp.utco = 16_384)
            },
            |record| {
                record
                    .timestamp
                    .iter_mut()
                    .for_each(|stamp| stamp.seconds = 1 << 40)
            },
            |record| {
                record
                    .timestamp
                    .iter_mut()
                    .for_each(|stamp| stamp.milliseconds = 1_000)
            },
        ];
        for spoil in spoiled {
            let mut record = good.clone();
            spoil(&mut record);
            assert_eq!(write(&record, STREAM, &mut [0; 200]), refused(6, 0));
        }
    }

    /// Without its SDC and its timestamp; with three bytes of SDC data, which read back.
    #[test]
    fn written_and_read_back() {
        let mut record = known();
        (record.sdc, record.timestamp) = (None, None);
        let mut output = [9; 200];
        let length = write(&record, STREAM, &mut output).unwrap();
        assert_eq!((length, read(&output[..length])), (76, Ok(record.clone())));
        record.sdc = Some(Sdc { afs: 15, length: 3 });
        record.sdc_data[1] = 7;
        let length = write(&record, STREAM, &mut output).unwrap();
        assert_eq!((length, read(&output[..length])), (90, Ok(record)));
        let empty = Draft::default();
        assert_eq!(read(&empty.bytes()).map(|_| ()), refused(4, 0));
    }
}
