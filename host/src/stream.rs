//! A tile's stream.

use crate::feature::{grow, split_nodes};
use crate::{raw, word, Map, Name, Offset, Part, Refusal, Rules, SubFile, TagName, TagNames};

/// A tile's stream: points, then ways' heads, each of which waits until it is accepted or declined, then the end.
///
/// A call out of turn is refused with 16 ([`Refusal::OutOfTurn`]): [`Stream::next`] while a way waits,
/// [`Stream::accept`], [`Stream::decline`] and [`Stream::skip`] while none does. A refused call leaves the stream where it was.
///
/// ```
/// # use mapsforge::{MapFile, Refusal, Step};
/// # let file = MapFile::open(concat!(env!("CARGO_MANIFEST_DIR"), "/../maps/islands.map"))?;
/// # let map = file.map()?;
/// let mut stream = map.sub_file(2)?.stream(9, 13)?;
/// let Step::Way(head) = stream.next()? else { panic!("the tile has no points") };
/// assert!(head.has_tag("natural", "coastline"));
/// assert_eq!(stream.next().unwrap_err(), Refusal::OutOfTurn);
/// assert_eq!(stream.accept()?.blocks.len(), 1);
/// assert_eq!(stream.decline(), Err(Refusal::OutOfTurn));
/// # Ok::<(), Box<dyn std::error::Error>>(())
/// ```
#[derive(Clone, Debug)]
pub struct Stream<'m, 'a> {
    map: &'m Map<'a>,
    state: [u64; word::STATE_WORDS],
    of: Opened<'m, 'a>,
    lists: Option<Lists>,
}

/// Which tile was opened, at which zoom, and how many ways were to come then.
#[derive(Clone, Copy, Debug)]
struct Opened<'m, 'a> {
    sub_file: SubFile<'m, 'a>,
    tile: usize,
    zoom: u8,
    ways: u64,
}

/// A streamed point. Texts are parts of the map, empty where they are no UTF-8.
#[derive(Clone, Debug)]
pub struct StreamedPoint<'m, 'a> {
    names: &'m TagNames<'a>,
    /// The offset from the tile's north-western corner.
    pub offset: Offset,
    /// The layer, from -5 to 10.
    pub layer: i8,
    /// The tags' numbers in [`Map::point_tags`].
    pub tag_ids: Vec<usize>,
    /// The name.
    pub name: Option<Part<'a>>,
    /// The house number.
    pub house_number: Option<Part<'a>>,
    /// The elevation in metres.
    pub elevation: Option<i32>,
    /// Whether all its numbers are stored plainly; see [`Tile::plain`](crate::Tile::plain).
    pub plain: bool,
}

/// A way's head, which waits.
#[derive(Clone, Debug)]
pub struct WayHead<'m, 'a> {
    names: &'m TagNames<'a>,
    /// Which of the tile's 4 by 4 cells the way touches, row by row, the highest bit first.
    pub bitmap: u16,
    /// The layer, from -5 to 10.
    pub layer: i8,
    /// The tags' numbers in [`Map::way_tags`].
    pub tag_ids: Vec<usize>,
    /// Whether all numbers of the head are stored plainly: the way's size, its tag ids and the lengths of its `%s` values.
    pub plain: bool,
}

/// The end of a stream.
#[derive(Clone, Copy, Debug, PartialEq, Eq)]
pub struct StreamEnd {
    /// The tile's sub file.
    pub sub_file: usize,
    /// Whether the tile is marked as water.
    pub water: bool,
    /// Whether all numbers that the stream has read are stored plainly: those of the tile's whole head, of the points, of the
    /// ways' heads and of the accepted ways' bodies. Calls that were refused do not count.
    pub plain: bool,
}

/// What is still to come in a stream; see [`Stream::to_come`].
#[derive(Clone, Copy, Debug, PartialEq, Eq)]
pub struct ToCome {
    /// How many points.
    pub points: u64,
    /// How many ways.
    pub ways: u64,
    /// Where the next point stands in the map; behind the last one, where the points end.
    pub next_point: u64,
    /// Where the next way stands; behind the last one, where the ways end.
    pub next_way: u64,
}

/// What [`Stream::next`] gives.
#[derive(Clone, Debug)]
pub enum Step<'m, 'a> {
    /// A point.
    Point(StreamedPoint<'m, 'a>),
    /// A way's head, which waits for [`Stream::accept`] or [`Stream::decline`].
    Way(WayHead<'m, 'a>),
    /// The end, again and again.
    End(StreamEnd),
}

/// Which ways a stream gives by [`Stream::next_selected`]: those that the window touches, where there is one, and that the rules
/// show, where there are any. Without both, all.
#[derive(Clone, Copy, Debug, Default, PartialEq, Eq)]
pub struct Selection<'r> {
    /// The cells of the tile that a window touches; see [`WayHead::shares_cell`].
    pub mask: Option<u16>,
    /// Checked rules, and the zoom at which they are asked; see [`Rules::shows`].
    pub rules: Option<(&'r Rules, u8)>,
}

impl<'r> Selection<'r> {
    fn words(&self) -> [u64; word::SELECT_WORDS] {
        let mut words = [0; word::SELECT_WORDS];
        words[word::SELECT_BY_WINDOW] = self.mask.is_some().into();
        words[word::SELECT_MASK] = self.mask.unwrap_or_default().into();
        words[word::SELECT_BY_RULES] = self.rules.is_some().into();
        words[word::SELECT_ZOOM] = self.rules.map_or(0, |(_, zoom)| zoom.into());
        words
    }

    fn classes(&self) -> &'r [u8] {
        self.rules.map_or(&[], |(rules, _)| rules.classes())
    }
}

/// An accepted way's body. Texts are parts of the map, empty where they are no UTF-8.
#[derive(Clone, Debug, PartialEq)]
pub struct StreamedBody<'a, Blocks = Vec<Vec<Offset>>> {
    /// The name.
    pub name: Option<Part<'a>>,
    /// The house number.
    pub house_number: Option<Part<'a>>,
    /// The reference.
    pub reference: Option<Part<'a>>,
    /// Where to put a label, as an offset from the first node.
    pub label: Option<Offset>,
    /// The blocks of nodes, as offsets from the tile's north-western corner; or, with lent lists, how many node counts
    /// and how many nodes went to their fronts.
    pub blocks: Blocks,
    /// Whether all numbers of the way are stored plainly, those of its head included.
    pub plain: bool,
}

/// The three lists that accepting writes to.
#[derive(Clone, Debug, Default)]
pub struct Lists {
    /// The blocks' numbers of nodes.
    pub node_counts: Vec<u64>,
    /// The latitudes of all nodes.
    pub latitudes: Vec<f64>,
    /// Their longitudes.
    pub longitudes: Vec<f64>,
}

/// What a next writes to.
#[derive(Default)]
struct Given {
    words: [u64; word::NEXT_WORDS],
    signed: [i64; word::SIGNED_WORDS],
    degrees: [f64; word::POSITION_DEGREES],
    ids: [u64; word::MAX_TAGS],
}

/// The tags of the numbers.
fn named<'m, 'a>(
    names: &'m TagNames<'a>,
    ids: &'m [usize],
) -> impl Iterator<Item = TagName<'a>> + 'm {
    ids.iter().filter_map(|&id| names.get(id))
}

impl<'a> StreamedPoint<'_, 'a> {
    /// The tags' names.
    pub fn tags(&self) -> impl Iterator<Item = TagName<'a>> + '_ {
        named(self.names, &self.tag_ids)
    }

    /// Whether the point has this tag.
    pub fn has_tag(&self, key: &str, value: &str) -> bool {
        self.tags().any(|tag| tag.is(key, value))
    }

    /// The name in a language; see [`Name::name_in`].
    pub fn name_in(&self, language: &str) -> Option<&'a str> {
        self.name.and_then(Part::as_str).map(|name| Name::new(name).name_in(language))
    }
}

impl<'a, Blocks> StreamedBody<'a, Blocks> {
    /// The name in a language; see [`Name::name_in`].
    pub fn name_in(&self, language: &str) -> Option<&'a str> {
        self.name.and_then(Part::as_str).map(|name| Name::new(name).name_in(language))
    }
}

impl<'a> WayHead<'_, 'a> {
    /// The tags' names.
    pub fn tags(&self) -> impl Iterator<Item = TagName<'a>> + '_ {
        named(self.names, &self.tag_ids)
    }

    /// Whether the way has this tag.
    pub fn has_tag(&self, key: &str, value: &str) -> bool {
        self.tags().any(|tag| tag.is(key, value))
    }

    /// Whether the way touches one of these cells, given as [`WayHead::bitmap`] is: by this a window decides (see
    /// [`crate::WindowTile`]).
    pub fn shares_cell(&self, mask: u16) -> bool {
        raw::shares_cell(self.bitmap, mask)
    }
}

impl<'m, 'a> Stream<'m, 'a> {
    pub(crate) fn open(sub_file: SubFile<'m, 'a>, tile: usize, zoom: u8) -> Result<Self, Refusal> {
        let (mut state, mut words) = ([0; word::STATE_WORDS], [0; word::VALUES]);
        let map = sub_file.map();
        let number = raw::stream_open(
            map.bytes(),
            map.layout(),
            sub_file.words(),
            sub_file.number(),
            sub_file.grid().corners(),
            tile,
            zoom,
            &mut state,
            &mut words,
        );
        Refusal::check(number, &words)?;
        let of = Opened { sub_file, tile, zoom, ways: state[word::IDLE_WAYS] };
        Ok(Stream { map, state, of, lists: None })
    }

    /// The words in which the library keeps the stream.
    pub fn state(&self) -> &[u64; word::STATE_WORDS] {
        &self.state
    }

    /// Whether a way waits to be accepted or declined.
    pub fn waits(&self) -> bool {
        self.state[word::STATE_WAITS] != 0
    }

    /// Where the library goes on while no way waits: how many points and ways are still to come, and where the next ones
    /// stand in the map. 2^64 - 1 stands for any larger place.
    pub fn to_come(&self) -> Option<ToCome> {
        (!self.waits()).then(|| ToCome {
            points: self.state[word::IDLE_POINTS],
            ways: self.state[word::IDLE_WAYS],
            next_point: self.state[word::IDLE_POINT],
            next_way: self.state[word::IDLE_WAY],
        })
    }

    /// Whether its tile is empty; see [`SubFile::is_empty`]. An empty tile has no bytes, and the library has 0 for the place
    /// of its features; those of any other tile stand behind its head, which has three bytes at least.
    pub fn of_empty_tile(&self) -> bool {
        self.to_come().is_some_and(|to_come| to_come.next_point == 0)
    }

    /// Whether all numbers that the stream has read so far are stored plainly: of an open one, those of the tile's head.
    pub fn plain(&self) -> bool {
        self.state[word::STATE_PLAIN] != 0
    }

    /// How many ways are still to come, without one that waits.
    pub(crate) fn ways_to_come(&self) -> u64 {
        let at = if self.waits() { word::WAITING_WAYS } else { word::IDLE_WAYS };
        self.state[at]
    }

    /// Where the body of the way that waits starts.
    pub fn body(&self) -> Option<u64> {
        self.waits().then(|| self.state[word::WAITING_BODY])
    }

    /// Where the library goes on if the way that waits is declined.
    pub fn past(&self) -> Option<u64> {
        self.waits().then(|| self.state[word::WAITING_PAST])
    }

    /// The next point; after the last one the next way's head; at last the end.
    #[allow(clippy::should_implement_trait)]
    pub fn next(&mut self) -> Result<Step<'m, 'a>, Refusal> {
        self.step(|map, state, Given { words, signed, degrees, ids }| {
            raw::stream_next(
                map.bytes(),
                map.layout(),
                map.letters(),
                state,
                words,
                signed,
                degrees,
                ids,
            )
        })
    }

    /// The same with every way declined that is not selected: the next point, the next way that is, or the end. A refused call
    /// declines nothing.
    ///
    /// ```
    /// # use mapsforge::{MapFile, Selection, Step};
    /// # let file = MapFile::open(concat!(env!("CARGO_MANIFEST_DIR"), "/../maps/islands.map"))?;
    /// # let map = file.map()?;
    /// let mut stream = map.sub_file(2)?.stream(9, 13)?;
    /// let northern_half = Selection { mask: Some(0xff00), ..Selection::default() };
    /// while let Step::Way(head) = stream.next_selected(&northern_half)? {
    ///     assert!(head.shares_cell(0xff00));
    ///     stream.accept()?;
    /// }
    /// # Ok::<(), Box<dyn std::error::Error>>(())
    /// ```
    pub fn next_selected(&mut self, selection: &Selection<'_>) -> Result<Step<'m, 'a>, Refusal> {
        let select = selection.words();
        self.step(|map, state, Given { words, signed, degrees, ids }| {
            raw::stream_next_selected(
                map.bytes(),
                map.layout(),
                map.letters(),
                &select,
                selection.classes(),
                state,
                words,
                signed,
                degrees,
                ids,
            )
        })
    }

    fn step(
        &mut self,
        call: impl FnOnce(&Map<'a>, &mut [u64; word::STATE_WORDS], &mut Given) -> u64,
    ) -> Result<Step<'m, 'a>, Refusal> {
        let bytes = self.map.bytes();
        let mut given = Given::default();
        let number = call(self.map, &mut self.state, &mut given);
        let Given { words, signed, degrees, ids } = given;
        Refusal::check(number, &words)?;
        // An answer writes its own words: of the others nothing is read.
        let tag_ids = || {
            let count = words[word::NEXT_TAG_COUNT] as usize;
            ids.iter().take(count).map(|&id| id as usize).collect()
        };
        let layer = || signed[word::LAYER] as i8;
        let plain = words[word::NEXT_PLAIN] != 0;
        Ok(match words[word::NEXT_KIND] {
            word::POINT => Step::Point(StreamedPoint {
                names: self.map.point_tags(),
                offset: Offset::of(degrees),
                layer: layer(),
                tag_ids: tag_ids(),
                name: Part::from_words(bytes, &words[word::NEXT_NAME..]),
                house_number: Part::from_words(bytes, &words[word::NEXT_HOUSE_NUMBER..]),
                elevation: (words[word::NEXT_HAS_ELEVATION] != 0)
                    .then_some(signed[word::ELEVATION] as i32),
                plain,
            }),
            word::WAY => Step::Way(WayHead {
                names: self.map.way_tags(),
                bitmap: words[word::NEXT_BITMAP] as u16,
                layer: layer(),
                tag_ids: tag_ids(),
                plain,
            }),
            _ => Step::End(StreamEnd {
                sub_file: words[word::NEXT_SUB_FILE] as usize,
                water: words[word::NEXT_WATER] != 0,
                plain,
            }),
        })
    }

    /// Decodes the waiting way, into lists of the stream's own. They are made once, for the first way that is accepted: as long
    /// as the tile wants them at this zoom if all its ways are accepted ([`SubFile::wanted`]). Where that is refused, or stored
    /// sizes lead elsewhere, they grow as needed. So refusal 15 is not met.
    pub fn accept(&mut self) -> Result<StreamedBody<'a>, Refusal> {
        self.make_lists(|stream| {
            vec![1; stream.of.ways.min(stream.map.bytes().len() as u64) as usize]
        });
        self.accept_to_own()
    }

    /// The same with lists as long as the tile wants them if just the selected ways are accepted, of which this is the first.
    pub(crate) fn accept_selected(
        &mut self,
        selection: &Selection<'_>,
    ) -> Result<StreamedBody<'a>, Refusal> {
        self.make_lists(|stream| stream.decisions(selection));
        self.accept_to_own()
    }

    /// The lists that [`Stream::accept`] writes to, once it has made them.
    pub fn lists(&self) -> Option<&Lists> {
        self.lists.as_ref()
    }

    /// Makes the stream's own lists by these decisions, unless they are there or no way waits.
    fn make_lists(&mut self, decisions: impl FnOnce(&Self) -> Vec<u8>) {
        if self.lists.is_some() || !self.waits() {
            return;
        }
        let Opened { sub_file, tile, zoom, .. } = self.of;
        let wanted = sub_file.wanted(tile, zoom, &decisions(self));
        self.lists = Some(wanted.unwrap_or_default().lists());
    }

    /// What a selection decides, of which the way that waits is the first that is selected. The heads behind it are found by
    /// the stored sizes.
    fn decisions(&self, selection: &Selection<'_>) -> Vec<u8> {
        let (mut ahead, mut decisions) = (self.clone(), Vec::new());
        while ahead.waits() {
            let come = self.of.ways - ahead.ways_to_come();
            decisions.resize(come as usize - 1, 0);
            decisions.push(1);
            if ahead.decline().and_then(|()| ahead.next_selected(selection)).is_err() {
                break;
            }
        }
        decisions
    }

    fn accept_to_own(&mut self) -> Result<StreamedBody<'a>, Refusal> {
        // Out of turn they are not made.
        let made = self.lists.is_some();
        let mut lists = self.lists.take().unwrap_or_default();
        let got = self.accept_with(&mut lists).map(|body| {
            let (blocks, nodes) = body.blocks;
            StreamedBody {
                name: body.name,
                house_number: body.house_number,
                reference: body.reference,
                label: body.label,
                blocks: split_nodes(
                    &lists.node_counts[..blocks],
                    &lists.latitudes[..nodes],
                    &lists.longitudes[..nodes],
                ),
                plain: body.plain,
            }
        });
        self.lists = made.then_some(lists);
        got
    }

    /// Decodes the waiting way into lists that are lent and grow as needed. The body has how many node counts, and how
    /// many nodes, went to their fronts.
    pub fn accept_with(
        &mut self,
        lists: &mut Lists,
    ) -> Result<StreamedBody<'a, (usize, usize)>, Refusal> {
        loop {
            let Lists { node_counts, latitudes, longitudes } = lists;
            match self.accept_into(node_counts, latitudes, longitudes) {
                Err(Refusal::TooShort(needed)) => {
                    grow(node_counts, needed.lists[0]);
                    grow(latitudes, needed.lists[1]);
                    grow(longitudes, needed.lists[2]);
                }
                other => return other,
            }
        }
    }

    /// Decodes the waiting way into slices that are lent. Refusal 15 with the lengths needed if one is too short: the way
    /// then still waits, and the slices have what they had.
    pub fn accept_into(
        &mut self,
        node_counts: &mut [u64],
        latitudes: &mut [f64],
        longitudes: &mut [f64],
    ) -> Result<StreamedBody<'a, (usize, usize)>, Refusal> {
        let bytes = self.map.bytes();
        let (mut words, mut degrees) = ([0; word::ACCEPT_WORDS], [0.0; word::POSITION_DEGREES]);
        let number = raw::stream_accept(
            bytes,
            &mut self.state,
            node_counts,
            latitudes,
            longitudes,
            &mut words,
            &mut degrees,
        );
        Refusal::check(number, &words)?;
        Ok(StreamedBody {
            name: Part::from_words(bytes, &words[word::ACCEPT_NAME..]),
            house_number: Part::from_words(bytes, &words[word::ACCEPT_HOUSE_NUMBER..]),
            reference: Part::from_words(bytes, &words[word::ACCEPT_REFERENCE..]),
            label: (words[word::ACCEPT_HAS_LABEL] != 0).then(|| Offset::of(degrees)),
            blocks: (words[word::ACCEPT_BLOCKS] as usize, words[word::ACCEPT_NODES] as usize),
            plain: words[word::ACCEPT_PLAIN] != 0,
        })
    }

    /// Goes past the waiting way, by its stored size.
    pub fn decline(&mut self) -> Result<(), Refusal> {
        let mut words = [0; word::VALUES];
        Refusal::check(raw::stream_decline(&mut self.state, &mut words), &words)
    }

    /// [`Stream::decline`] and then [`Stream::next`], in one call, which saves a call and no time. 16
    /// ([`Refusal::OutOfTurn`]) while no way waits; where the next is refused, the way still waits.
    ///
    /// ```
    /// # use mapsforge::{MapFile, Refusal, Step};
    /// # let file = MapFile::open(concat!(env!("CARGO_MANIFEST_DIR"), "/../maps/islands.map"))?;
    /// # let map = file.map()?;
    /// let mut stream = map.sub_file(2)?.stream(9, 13)?;
    /// assert_eq!(stream.skip().unwrap_err(), Refusal::OutOfTurn);
    /// let (mut step, mut ways) = (stream.next()?, 0);
    /// while let Step::Way(_) = step {
    ///     ways += 1;
    ///     step = stream.skip()?;
    /// }
    /// assert!(ways > 0);
    /// # Ok::<(), Box<dyn std::error::Error>>(())
    /// ```
    pub fn skip(&mut self) -> Result<Step<'m, 'a>, Refusal> {
        self.step(|map, state, Given { words, signed, degrees, ids }| {
            raw::stream_skip(
                map.bytes(),
                map.layout(),
                map.letters(),
                state,
                words,
                signed,
                degrees,
                ids,
            )
        })
    }
}
