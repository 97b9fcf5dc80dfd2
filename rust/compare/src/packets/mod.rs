//! Packets and the mirror: their exports beside the second program.

mod builders;
mod kinds;
pub mod mirrors;
pub mod readers;
mod words;

use second::heard::{Address, Message, Status};
use second::packet::{
    AddressEnable, AllFrameMode, Checksum, Configuration, Control, FrameAssignment, PartId,
    ReceiverLines, ShutDown, UserAddress,
};
use second::vector::Vector;

use crate::tally::Tally;
use kinds::Readable;
use words::{every_id, packets};

/// Compares one builder.
type Builder = fn(&[String], u64) -> Result<Tally, String>;

const BUILDERS: [Builder; 10] = [
    builders::compare::<Checksum>,
    builders::compare::<Configuration>,
    builders::compare::<Control>,
    builders::compare::<AllFrameMode>,
    builders::compare::<ReceiverLines>,
    builders::compare::<ShutDown>,
    builders::compare::<FrameAssignment>,
    builders::compare::<UserAddress>,
    builders::compare::<AddressEnable>,
    builders::compare::<PartId>,
];

/// Compares one reader.
type Reader = fn(&[String], u64, Extent) -> Result<Tally, String>;

const READERS: [Reader; 14] = [
    compare_reader::<Checksum>,
    compare_reader::<Configuration>,
    compare_reader::<Control>,
    compare_reader::<AllFrameMode>,
    compare_reader::<ReceiverLines>,
    compare_reader::<ShutDown>,
    compare_reader::<FrameAssignment>,
    compare_reader::<UserAddress>,
    compare_reader::<AddressEnable>,
    compare_reader::<PartId>,
    compare_reader::<Status>,
    compare_reader::<Address>,
    compare_reader::<Vector>,
    compare_reader::<Message>,
];

/// How many packets go through a reader.
#[derive(Clone, Copy, Debug, PartialEq, Eq)]
pub enum Extent {
    /// A million in all, of every ID.
    Usual,
    /// A million of each ID that the reader is for.
    Full,
}

impl Extent {
    fn words_for_each_id(self) -> usize {
        match self {
            Extent::Usual => 3_907,
            Extent::Full => 1_000_000,
        }
    }

    fn packets_for<F: Readable>(self, seed: u64) -> impl Iterator<Item = u32> + Send {
        let all = self == Extent::Usual;
        let ids = every_id().filter(|id| all || F::has_id(*id)).collect();
        packets(ids, self.words_for_each_id(), seed)
    }

    fn packets_of_every_id(self, seed: u64) -> impl Iterator<Item = u32> + Send {
        packets(every_id().collect(), self.words_for_each_id(), seed)
    }
}

/// Says the counts of each export as soon as it is compared. Each export has a
/// seed of its own, so that one's count does not move another's inputs. The
/// full extent is for the readers, and for the question what may be sent.
pub fn compare(exchange: &[String], seed: u64, extent: Extent) -> Result<String, String> {
    let mut compared = 0;
    let mut tell = |tally: Tally| {
        println!("{tally}");
        compared += tally.compared();
    };
    for reader in READERS {
        tell(reader(exchange, seed, extent)?);
    }
    let packets = extent.packets_of_every_id(seed.wrapping_add(34));
    tell(readers::compare_may_send(exchange, packets)?);
    if extent == Extent::Usual {
        for builder in BUILDERS {
            tell(builder(exchange, seed)?);
        }
        let packets = extent.packets_of_every_id(seed.wrapping_add(35));
        tell(mirrors::compare_resets(exchange, packets)?);
        tell(mirrors::compare_steps(exchange, seed.wrapping_add(36))?);
        tell(mirrors::compare_runs(exchange, seed.wrapping_add(37))?);
        tell(mirrors::compare_closings(exchange, seed.wrapping_add(38))?);
    }
    Ok(format!(
        "packets: {compared} answers (seed {seed}) compared, all agree"
    ))
}

fn compare_reader<F: Readable>(
    exchange: &[String],
    seed: u64,
    extent: Extent,
) -> Result<Tally, String> {
    let packets = extent.packets_for::<F>(seed.wrapping_add(u64::from(F::READER)));
    readers::compare::<F>(exchange, packets)
}
