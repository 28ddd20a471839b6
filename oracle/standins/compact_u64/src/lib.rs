//! Stand-in for `compact_u64`, written from the format's description (docs/FORMAT.md).
//! The original crate is not at hand.
//!
//! With a tag of w bits: a value below 2^w - 4 is the tag itself and no byte follows. Otherwise
//! the tag is 2^w - 4, - 3, - 2 or - 1 and 1, 2, 4 or 8 bytes follow, highest first. With w = 2
//! there is no value in the tag: tag 0 is 2^2 - 4, so one byte follows. Hence for a 2-bit tag
//! `encoding_width() != EncodingWidth::one()` says exactly "the tag is not zero".
use std::convert::Infallible;
use ufotofu::{BulkConsumer, BulkProducer};
use ufotofu_codec::{
    Blame, Decodable, DecodableCanonic, DecodableSync, DecodeError, Encodable, EncodableKnownSize,
    EncodableSync, RelativeDecodable, RelativeDecodableCanonic, RelativeDecodableSync,
    RelativeEncodable, RelativeEncodableKnownSize, RelativeEncodableSync,
};

#[derive(Debug, Clone, Copy, PartialEq, Eq, PartialOrd, Ord, Hash)]
pub struct TagWidth(u8);
impl TagWidth {
    pub fn new(w: u8) -> Option<Self> {
        (2..=8).contains(&w).then_some(TagWidth(w))
    }
    pub fn two() -> Self {
        TagWidth(2)
    }
    pub fn three() -> Self {
        TagWidth(3)
    }
    pub fn four() -> Self {
        TagWidth(4)
    }
    pub fn eight() -> Self {
        TagWidth(8)
    }
    /// 2^w - 4, the first tag after which bytes follow.
    fn first_long(self) -> u64 {
        (1u64 << self.0) - 4
    }
}

/// How many bytes follow the tag: 0, 1, 2, 4 or 8.
#[derive(Debug, Clone, Copy, PartialEq, Eq, PartialOrd, Ord, Hash)]
pub struct EncodingWidth(u8);
impl EncodingWidth {
    pub fn zero() -> Self {
        EncodingWidth(0)
    }
    pub fn one() -> Self {
        EncodingWidth(1)
    }
    pub fn two() -> Self {
        EncodingWidth(2)
    }
    pub fn four() -> Self {
        EncodingWidth(4)
    }
    pub fn eight() -> Self {
        EncodingWidth(8)
    }
    pub fn min_width(n: u64, w: TagWidth) -> Self {
        EncodingWidth(if n < w.first_long() {
            0
        } else if n < 1 << 8 {
            1
        } else if n < 1 << 16 {
            2
        } else if n < 1 << 32 {
            4
        } else {
            8
        })
    }
    pub fn as_usize(self) -> usize {
        self.0 as usize
    }
}

#[derive(Debug, Clone, Copy, PartialEq, Eq)]
pub struct Tag {
    width: TagWidth,
    data: u8,
}
impl Tag {
    /// The tag of the shortest encoding.
    pub fn min_tag(n: u64, width: TagWidth) -> Self {
        let long = width.first_long();
        let data = match EncodingWidth::min_width(n, width).0 {
            0 => n,
            1 => long,
            2 => long + 1,
            4 => long + 2,
            _ => long + 3,
        };
        Tag { width, data: data as u8 }
    }
    /// The tag's bits, its highest at the given bit of a byte (0 is the highest).
    pub fn data_at_offset(&self, offset: u8) -> u8 {
        assert!(offset + self.width.0 <= 8);
        self.data << (8 - self.width.0 - offset)
    }
    pub fn from_raw(raw: u8, width: TagWidth, offset: u8) -> Self {
        assert!(offset + width.0 <= 8);
        let mask = ((1u16 << width.0) - 1) as u8;
        Tag { width, data: (raw >> (8 - width.0 - offset)) & mask }
    }
    pub fn encoding_width(&self) -> EncodingWidth {
        match (self.data as u64).checked_sub(self.width.first_long()) {
            None => EncodingWidth(0),
            Some(i) => EncodingWidth(1 << i),
        }
    }
    pub fn data(&self) -> u8 {
        self.data
    }
}

#[derive(Debug, Clone, Copy, PartialEq, Eq)]
pub struct NotMinimal;
impl From<Infallible> for NotMinimal {
    fn from(i: Infallible) -> Self {
        match i {}
    }
}
impl From<NotMinimal> for Blame {
    fn from(_: NotMinimal) -> Self {
        Blame::TheirFault
    }
}

#[derive(Debug, Clone, Copy, PartialEq, Eq, PartialOrd, Ord, Hash)]
pub struct CompactU64(pub u64);

impl RelativeEncodable<EncodingWidth> for CompactU64 {
    async fn relative_encode<C>(&self, consumer: &mut C, r: &EncodingWidth) -> Result<(), C::Error>
    where
        C: BulkConsumer<Item = u8>,
    {
        consumer
            .bulk_consume_full_slice(&self.0.to_be_bytes()[8 - r.as_usize()..])
            .await
            .map_err(|e| e.into_reason())
    }
}
impl RelativeEncodableKnownSize<EncodingWidth> for CompactU64 {
    fn relative_len_of_encoding(&self, r: &EncodingWidth) -> usize {
        r.as_usize()
    }
}
impl RelativeEncodableSync<EncodingWidth> for CompactU64 {}

impl RelativeDecodable<Tag, Infallible> for CompactU64 {
    async fn relative_decode<P>(
        producer: &mut P,
        tag: &Tag,
    ) -> Result<Self, DecodeError<P::Final, P::Error, Infallible>>
    where
        P: BulkProducer<Item = u8>,
    {
        let width = tag.encoding_width().as_usize();
        if width == 0 {
            return Ok(CompactU64(tag.data as u64));
        }
        let mut n = 0u64;
        for _ in 0..width {
            n = n << 8 | producer.produce_item().await? as u64;
        }
        Ok(CompactU64(n))
    }
}
impl RelativeDecodableCanonic<Tag, Infallible, NotMinimal> for CompactU64 {
    /// Reads all bytes of the number first, then refuses any but the shortest form.
    async fn relative_decode_canonic<P>(
        producer: &mut P,
        tag: &Tag,
    ) -> Result<Self, DecodeError<P::Final, P::Error, NotMinimal>>
    where
        P: BulkProducer<Item = u8>,
    {
        let n = Self::relative_decode(producer, tag).await.map_err(DecodeError::map_other_from)?;
        if Tag::min_tag(n.0, tag.width) != *tag {
            return Err(DecodeError::Other(NotMinimal));
        }
        Ok(n)
    }
}
impl RelativeDecodableSync<Tag, Infallible> for CompactU64 {}

// Standalone: an 8-bit tag in a byte of its own.
impl Encodable for CompactU64 {
    async fn encode<C>(&self, consumer: &mut C) -> Result<(), C::Error>
    where
        C: BulkConsumer<Item = u8>,
    {
        let tag = Tag::min_tag(self.0, TagWidth::eight());
        consumer.consume(tag.data).await?;
        self.relative_encode(consumer, &tag.encoding_width()).await
    }
}
impl EncodableKnownSize for CompactU64 {
    fn len_of_encoding(&self) -> usize {
        1 + EncodingWidth::min_width(self.0, TagWidth::eight()).as_usize()
    }
}
impl EncodableSync for CompactU64 {}
impl Decodable for CompactU64 {
    type ErrorReason = Infallible;
    async fn decode<P>(
        producer: &mut P,
    ) -> Result<Self, DecodeError<P::Final, P::Error, Infallible>>
    where
        P: BulkProducer<Item = u8>,
    {
        let tag = Tag::from_raw(producer.produce_item().await?, TagWidth::eight(), 0);
        Self::relative_decode(producer, &tag).await
    }
}
impl DecodableCanonic for CompactU64 {
    type ErrorCanonic = NotMinimal;
    async fn decode_canonic<P>(
        producer: &mut P,
    ) -> Result<Self, DecodeError<P::Final, P::Error, NotMinimal>>
    where
        P: BulkProducer<Item = u8>,
    {
        let tag = Tag::from_raw(producer.produce_item().await?, TagWidth::eight(), 0);
        Self::relative_decode_canonic(producer, &tag).await
    }
}
impl DecodableSync for CompactU64 {}
