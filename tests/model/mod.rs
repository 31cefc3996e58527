//! The rules of 01 and 02 as a plain program. It shares no code with the product.

mod auction;
mod collector;
mod keeping;
mod link_file;
mod listing;
mod load;
mod planner;
mod sheet;
mod within;

use crate::rules::*;

/// Faults to build into the model on purpose, to see whether the cases notice them.
#[derive(Clone, Copy, Debug, PartialEq)]
pub enum Wrong {
    TieByFirstMet,
    HorizonFromRawPrice,
    RawPrices,
    PathShortenedAtOrigin,
    IterationCap,
    LaterArcExtended,
    FirstStopForgotten,
    UnreachedTailUnmarked,
    LengthBeforeEnds,
    EndsOfAllArcsFirst,
    PlaceIsNode,
    NeedlessFieldsAccepted,
    NeedlessBeforeImpliedHead,
    ImpliedHeadWraps,
    WantedCountTestedLate,
    ArcCountTestedLate,
    RefusedFileFills,
    EmptyWantedListOmitted,
    HeadZeroAfterLastOmitted,
    WrongHeadAccepted,
    ShortBufferFirst,
    OriginsEntryRead,
    RepeatsPrinted,
    PathsByNode,
    PathTiesTurned,
    PathsAsWanted,
    NoMarksAfterNoRoute,
    MarksBeforePaths,
    MarkCountsExchanged,
    DownLinksUsed,
    DownByOneLess,
    DownLinksUnmarked,
    DownLinksClosedUp,
    DownLinksUntested,
    StopScans,
    FirstScanForgotten,
    OtherLostChildrenUnseen,
    ChildsPriceUnseen,
    ScansByKind,
    EachIterationScans,
    LimitItselfPassed,
    LimitOnHorizon,
    LimitOnEveryPrice,
    LimitCutTo32Bits,
    LimitComparedAfterRun,
    PassingUncounted,
    PassedIsWithin,
    NoWalkRefused,
    AskedNodeTestedLast,
    AskedPlaceIsNode,
    DownLinksWithin,
    TieByLatest,
    PricesAreDistances,
    ColumnsNotExchanged,
    CollectorTieByLatest,
    CollectorPricesAreDistances,
    CollectorDownLinksUsed,
    SenderPlaceIsNode,
    CollectorListedFirst,
    EntryNotMirrored,
    WrongTailAccepted,
    CollectorsEntryRead,
    CollectorRoomFirst,
    RefusedListFills,
    EqualStandingDropped,
    StepByLongest,
    StepByFirst,
    StepByLast,
    StepOverDown,
    StepBackwards,
    LongestStepAbsent,
    RepeatNeedsNoLoop,
    LastStepUncounted,
    TotalsCutTo32Bits,
    StandingStartUncompared,
    StandingEndUncompared,
    StandingRefused,
    EmptyStandingKept,
    LongStandingKept,
    FullListRefused,
    LoneNodeRefused,
    LoneNodeUntested,
    EmptyFreshTaken,
    LongFreshTaken,
    FreshUntested,
    WalkTestedBeforeArcs,
    KeepingDownUntested,
    NoWalkPlaceIsStep,
    RefusalCountsFresh,
    FreshCountGiven,
    LoopsDrawn,
    LengthAlwaysDrawn,
    FormerStateDrawn,
    ChanceItselfTaken,
    LowBitsDecide,
    LengthByFirstDraw,
    SecondDrawForgotten,
    LengthsFromZero,
    HeadsBeforeTails,
    ColumnsBeforeNodeCount,
    RangeBeforeColumns,
    SizeBeforeRange,
    RoomForItsArcsEnough,
    UnequalColumnsRefused,
    GreaterChanceTaken,
    DownAsLargestTaken,
    LongestAsLargestRefused,
    OneArcMoreTaken,
    FullLoadRefused,
    LoadPlaceIsArc,
    RefusedLoadFills,
    LoadCleansRest,
}

pub const ALL_WRONG: [Wrong; 112] = [
    Wrong::TieByFirstMet,
    Wrong::HorizonFromRawPrice,
    Wrong::RawPrices,
    Wrong::PathShortenedAtOrigin,
    Wrong::IterationCap,
    Wrong::LaterArcExtended,
    Wrong::FirstStopForgotten,
    Wrong::UnreachedTailUnmarked,
    Wrong::LengthBeforeEnds,
    Wrong::EndsOfAllArcsFirst,
    Wrong::PlaceIsNode,
    Wrong::NeedlessFieldsAccepted,
    Wrong::NeedlessBeforeImpliedHead,
    Wrong::ImpliedHeadWraps,
    Wrong::WantedCountTestedLate,
    Wrong::ArcCountTestedLate,
    Wrong::RefusedFileFills,
    Wrong::EmptyWantedListOmitted,
    Wrong::HeadZeroAfterLastOmitted,
    Wrong::WrongHeadAccepted,
    Wrong::ShortBufferFirst,
    Wrong::OriginsEntryRead,
    Wrong::RepeatsPrinted,
    Wrong::PathsByNode,
    Wrong::PathTiesTurned,
    Wrong::PathsAsWanted,
    Wrong::NoMarksAfterNoRoute,
    Wrong::MarksBeforePaths,
    Wrong::MarkCountsExchanged,
    Wrong::DownLinksUsed,
    Wrong::DownByOneLess,
    Wrong::DownLinksUnmarked,
    Wrong::DownLinksClosedUp,
    Wrong::DownLinksUntested,
    Wrong::StopScans,
    Wrong::FirstScanForgotten,
    Wrong::OtherLostChildrenUnseen,
    Wrong::ChildsPriceUnseen,
    Wrong::ScansByKind,
    Wrong::EachIterationScans,
    Wrong::LimitItselfPassed,
    Wrong::LimitOnHorizon,
    Wrong::LimitOnEveryPrice,
    Wrong::LimitCutTo32Bits,
    Wrong::LimitComparedAfterRun,
    Wrong::PassingUncounted,
    Wrong::PassedIsWithin,
    Wrong::NoWalkRefused,
    Wrong::AskedNodeTestedLast,
    Wrong::AskedPlaceIsNode,
    Wrong::DownLinksWithin,
    Wrong::TieByLatest,
    Wrong::PricesAreDistances,
    Wrong::ColumnsNotExchanged,
    Wrong::CollectorTieByLatest,
    Wrong::CollectorPricesAreDistances,
    Wrong::CollectorDownLinksUsed,
    Wrong::SenderPlaceIsNode,
    Wrong::CollectorListedFirst,
    Wrong::EntryNotMirrored,
    Wrong::WrongTailAccepted,
    Wrong::CollectorsEntryRead,
    Wrong::CollectorRoomFirst,
    Wrong::RefusedListFills,
    Wrong::EqualStandingDropped,
    Wrong::StepByLongest,
    Wrong::StepByFirst,
    Wrong::StepByLast,
    Wrong::StepOverDown,
    Wrong::StepBackwards,
    Wrong::LongestStepAbsent,
    Wrong::RepeatNeedsNoLoop,
    Wrong::LastStepUncounted,
    Wrong::TotalsCutTo32Bits,
    Wrong::StandingStartUncompared,
    Wrong::StandingEndUncompared,
    Wrong::StandingRefused,
    Wrong::EmptyStandingKept,
    Wrong::LongStandingKept,
    Wrong::FullListRefused,
    Wrong::LoneNodeRefused,
    Wrong::LoneNodeUntested,
    Wrong::EmptyFreshTaken,
    Wrong::LongFreshTaken,
    Wrong::FreshUntested,
    Wrong::WalkTestedBeforeArcs,
    Wrong::KeepingDownUntested,
    Wrong::NoWalkPlaceIsStep,
    Wrong::RefusalCountsFresh,
    Wrong::FreshCountGiven,
    Wrong::LoopsDrawn,
    Wrong::LengthAlwaysDrawn,
    Wrong::FormerStateDrawn,
    Wrong::ChanceItselfTaken,
    Wrong::LowBitsDecide,
    Wrong::LengthByFirstDraw,
    Wrong::SecondDrawForgotten,
    Wrong::LengthsFromZero,
    Wrong::HeadsBeforeTails,
    Wrong::ColumnsBeforeNodeCount,
    Wrong::RangeBeforeColumns,
    Wrong::SizeBeforeRange,
    Wrong::RoomForItsArcsEnough,
    Wrong::UnequalColumnsRefused,
    Wrong::GreaterChanceTaken,
    Wrong::DownAsLargestTaken,
    Wrong::LongestAsLargestRefused,
    Wrong::OneArcMoreTaken,
    Wrong::FullLoadRefused,
    Wrong::LoadPlaceIsArc,
    Wrong::RefusedLoadFills,
    Wrong::LoadCleansRest,
];

/// The rules, or with a fault.
pub struct Model {
    pub wrong: Option<Wrong>,
}

pub const RIGHT: Model = Model { wrong: None };

impl Model {
    fn has(&self, fault: Wrong) -> bool {
        self.wrong == Some(fault)
    }
}

/// Puts the nodes at the start of the output, which has room for them.
fn listed(nodes: Result<Vec<u16>, Refusal>, output: &mut [u16]) -> Listed {
    match nodes {
        Ok(nodes) => {
            output[..nodes.len()].copy_from_slice(&nodes);
            Listed { count: nodes.len() as u32, ..Listed::default() }
        }
        Err(Refusal { number, place }) => Listed { number, place, ..Listed::default() },
    }
}

impl Entries for Model {
    fn plan(&self, table: &Table, out: PlanBuffers) -> Planned {
        self.plan_routes(table, out)
    }

    fn plan_to_collector(&self, table: &Table, out: PlanBuffers) -> Planned {
        self.plan_exchanged(table, out)
    }

    fn within(&self, table: &Table, node: u16, limit: u64) -> Within {
        self.within_limit(table, node, limit)
    }

    fn list(&self, listing: &Listing, output: &mut [u16]) -> Listed {
        listed(self.nodes_of_path(listing, output.len()), output)
    }

    fn list_to_collector(&self, listing: &Listing, output: &mut [u16]) -> Listed {
        if self.has(Wrong::RefusedListFills) {
            let nodes = self.nodes_to_collector(listing, MOST_NODES).unwrap_or_default();
            output.iter_mut().zip(nodes).for_each(|(place, node)| *place = node);
        }
        listed(self.nodes_to_collector(listing, output.len()), output)
    }

    fn keep(&self, n: u32, columns: Columns, standing: &[u16], fresh: &[u16]) -> Kept {
        let Columns { tails, heads, lengths } = columns;
        let (tails, heads, lengths) = (tails.to_vec(), heads.to_vec(), lengths.to_vec());
        self.keep_path(&Table { n, tails, heads, lengths, ..Table::default() }, standing, fresh)
    }

    fn read(&self, file: &[u8], out: ReadBuffers) -> TableRead {
        self.read_into(file, out)
    }

    fn write(&self, table: &Table, output: &mut [u8]) -> Written {
        match self.file_of(table, output.len()) {
            Ok(file) => {
                output[..file.len()].copy_from_slice(&file);
                Written { length: file.len() as u32, ..Written::default() }
            }
            Err(Refusal { number, place }) => Written { number, place, ..Written::default() },
        }
    }

    fn make(&self, load: &Load, out: LoadBuffers) -> Made {
        self.make_load(load, out)
    }

    fn print(&self, file: &[u8]) -> Result<String, String> {
        Ok(self.sheet(file))
    }
}
