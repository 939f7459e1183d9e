//! What a tile's stream will want.

use crate::{raw, word, Lists, Refusal, SubFile};

/// What a tile's stream at a zoom delivers, and how long lists it needs, if its ways are accepted and declined by a list of
/// decisions; see [`SubFile::wanted`].
#[derive(Clone, Copy, Debug, Default, PartialEq, Eq)]
pub struct Wanted {
    /// How many points it delivers.
    pub points: u64,
    /// How many ways it accepts.
    pub ways: u64,
    /// The most blocks of any one accepted way, 0 without one: the length of [`Lists::node_counts`].
    pub blocks: u64,
    /// The most nodes of any one: the length of [`Lists::latitudes`] and [`Lists::longitudes`].
    pub nodes: u64,
    /// The longest name, house number or reference of a point or an accepted way, in bytes as stored, whether or not they are
    /// valid UTF-8.
    pub text: u64,
}

impl Wanted {
    /// Lists of just these lengths: with them no accept of that stream is refused with 15.
    pub fn lists(&self) -> Lists {
        let (blocks, nodes) = (self.blocks as usize, self.nodes as usize);
        Lists {
            node_counts: vec![0; blocks],
            latitudes: vec![0.0; nodes],
            longitudes: vec![0.0; nodes],
        }
    }
}

impl SubFile<'_, '_> {
    /// What a tile's stream at a zoom will want: byte k of the decisions decides way k, 0 declines it, any other value accepts
    /// it, and ways behind their end are declined. No node is written. It is refused as that stream is, in its middle too.
    ///
    /// ```
    /// # use mapsforge::{MapFile, Step};
    /// # let file = MapFile::open(concat!(env!("CARGO_MANIFEST_DIR"), "/../maps/islands.map"))?;
    /// # let map = file.map()?;
    /// let sub_file = map.sub_file(2)?;
    /// let decisions = [1, 0, 1];
    /// let wanted = sub_file.wanted(10, 13, &decisions)?;
    /// let (mut lists, mut stream) = (wanted.lists(), sub_file.stream(10, 13)?);
    /// let (mut points, mut ways) = (0, 0);
    /// loop {
    ///     match stream.next()? {
    ///         Step::Point(_) => points += 1,
    ///         Step::Way(_) if decisions.get(ways).is_some_and(|&decision| decision != 0) => {
    ///             stream.accept_into(&mut lists.node_counts, &mut lists.latitudes, &mut lists.longitudes)?;
    ///             ways += 1;
    ///         }
    ///         Step::Way(_) => {
    ///             stream.decline()?;
    ///             ways += 1;
    ///         }
    ///         Step::End(_) => break,
    ///     }
    /// }
    /// assert_eq!((wanted.points, wanted.ways), (points, 2));
    /// # Ok::<(), Box<dyn std::error::Error>>(())
    /// ```
    pub fn wanted(&self, tile: usize, zoom: u8, decisions: &[u8]) -> Result<Wanted, Refusal> {
        let (map, mut words) = (self.map(), [0; word::WANTED_WORDS]);
        let number = raw::wanted(
            map.bytes(),
            map.layout(),
            map.letters(),
            self.words(),
            self.grid().corners(),
            tile,
            zoom,
            decisions,
            &mut words,
        );
        Refusal::check(number, &words)?;
        Ok(Wanted {
            points: words[word::WANTED_POINTS],
            ways: words[word::WANTED_WAYS],
            blocks: words[word::WANTED_BLOCKS],
            nodes: words[word::WANTED_NODES],
            text: words[word::WANTED_TEXT],
        })
    }
}
