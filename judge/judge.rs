//! The judge: taffy's flexbox as published, stage by stage, behind C entry points (judge.h).
//!
//! `geometry.rs` and `alignment.rs` are the crate's files, and `cut.rs` holds the items that judge/build cuts by name out of its flexbox.rs, all
//! unchanged. What that text takes from files that are not to be had stands here, in its smallest form, and nothing else does: no rule of
//! breaking, flexing or placing is written in this file, only the order in which the crate's own `compute_preliminary` calls its stages.

#![allow(dead_code, dropping_copy_types, private_interfaces)]

#[rustfmt::skip]
mod alignment;
#[rustfmt::skip]
mod geometry;

mod util {
    pub(crate) mod sys {
        pub(crate) use std::vec::Vec;

        pub(crate) fn new_vec_with_capacity<A>(capacity: usize) -> Vec<A> {
            Vec::with_capacity(capacity)
        }
        pub(crate) fn f32_max(a: f32, b: f32) -> f32 {
            a.max(b)
        }
        pub(crate) fn f32_min(a: f32, b: f32) -> f32 {
            a.min(b)
        }
    }
}

/// Styles: only lengths and `auto` are ever said here.
mod style {
    #[derive(Clone, Copy, PartialEq)]
    pub enum FlexDirection {
        Row,
        RowReverse,
        Column,
        ColumnReverse,
    }

    impl FlexDirection {
        pub const fn is_row(self) -> bool {
            matches!(self, FlexDirection::Row | FlexDirection::RowReverse)
        }
        pub const fn is_column(self) -> bool {
            !self.is_row()
        }
        pub const fn is_reverse(self) -> bool {
            matches!(self, FlexDirection::RowReverse | FlexDirection::ColumnReverse)
        }
        pub fn main_axis(self) -> crate::geometry::AbsoluteAxis {
            if self.is_row() { crate::geometry::AbsoluteAxis::Horizontal } else { crate::geometry::AbsoluteAxis::Vertical }
        }
        pub fn cross_axis(self) -> crate::geometry::AbsoluteAxis {
            self.main_axis().other_axis()
        }
    }

    #[derive(Clone, Copy, PartialEq)]
    pub enum CompactLength {
        Auto,
        Length(f32),
        Percent(f32),
    }

    impl CompactLength {
        pub const fn length(value: f32) -> Self {
            CompactLength::Length(value)
        }
        pub const fn percent(value: f32) -> Self {
            CompactLength::Percent(value)
        }
    }

    #[derive(Clone, Copy, PartialEq)]
    pub struct Dimension(pub CompactLength);

    impl Dimension {
        pub fn is_auto(self) -> bool {
            self.0 == CompactLength::Auto
        }
        pub fn is_stretch(self) -> bool {
            false
        }
        pub fn is_content(self) -> bool {
            false
        }
        pub fn is_sizing_keyword(self) -> bool {
            false
        }
        pub fn length(self) -> Option<f32> {
            match self.0 {
                CompactLength::Length(value) => Some(value),
                _ => None,
            }
        }
    }

    #[derive(Clone, Copy, PartialEq)]
    pub enum Overflow {
        Visible,
        Hidden,
    }

    impl Overflow {
        pub fn is_scroll_container(self) -> bool {
            self == Overflow::Hidden
        }
        pub fn maybe_into_automatic_min_size(self) -> Option<f32> {
            self.is_scroll_container().then_some(0.0)
        }
    }

    #[derive(Clone, Copy, PartialEq)]
    pub enum AlignmentSafety {
        Unsafe,
        Safe,
    }

    #[derive(Clone, Copy, PartialEq, Debug)]
    pub enum AlignItemsKeyword {
        Normal,
        Start,
        End,
        SelfStart,
        SelfEnd,
        FlexStart,
        FlexEnd,
        Center,
        Baseline,
        Stretch,
    }

    #[derive(Clone, Copy, PartialEq, Debug)]
    pub enum AlignContentKeyword {
        Normal,
        Start,
        End,
        FlexStart,
        FlexEnd,
        Center,
        Stretch,
        SpaceBetween,
        SpaceEvenly,
        SpaceAround,
    }

    #[derive(Clone, Copy, PartialEq)]
    pub struct AlignItems {
        pub keyword: AlignItemsKeyword,
        pub safety: AlignmentSafety,
    }

    impl AlignItems {
        pub const STRETCH: Self = Self { keyword: AlignItemsKeyword::Stretch, safety: AlignmentSafety::Unsafe };
        pub const BASELINE: Self = Self { keyword: AlignItemsKeyword::Baseline, safety: AlignmentSafety::Unsafe };
        pub fn is_safe(self) -> bool {
            self.safety == AlignmentSafety::Safe
        }
    }

    #[derive(Clone, Copy, PartialEq)]
    pub struct AlignContent {
        pub keyword: AlignContentKeyword,
        pub safety: AlignmentSafety,
    }

    impl AlignContent {
        pub const STRETCH: Self = Self { keyword: AlignContentKeyword::Stretch, safety: AlignmentSafety::Unsafe };
    }
}

use alignment::{apply_alignment_fallback, compute_alignment_offset};
use geometry::{AbsoluteAxis, Line, Point, Rect, Size};
use style::{
    AlignContent, AlignContentKeyword, AlignItems, AlignItemsKeyword, AlignmentSafety, CompactLength, Dimension, FlexDirection, Overflow,
};
use util::sys::{f32_max, new_vec_with_capacity};

type AlignSelf = AlignItems;
type JustifyContent = AlignContent;
type NodeId = usize;
type OofCandidates = ();
type Contain = ();

macro_rules! debug_log {
    ($($any:tt)*) => {};
}

#[derive(Clone, Copy, PartialEq)]
enum Direction {
    Ltr,
    Rtl,
}

#[derive(Clone, Copy, PartialEq)]
enum BoxSizing {
    BorderBox,
    ContentBox,
}

#[derive(Clone, Copy, PartialEq)]
enum AvailableSpace {
    Definite(f32),
    MinContent,
    MaxContent,
}

impl AvailableSpace {
    fn into_option(self) -> Option<f32> {
        match self {
            AvailableSpace::Definite(value) => Some(value),
            _ => None,
        }
    }
    fn is_definite(self) -> bool {
        self.into_option().is_some()
    }
    fn map_definite_value(self, f: impl FnOnce(f32) -> f32) -> Self {
        match self {
            AvailableSpace::Definite(value) => AvailableSpace::Definite(f(value)),
            bare => bare,
        }
    }
}

impl From<f32> for AvailableSpace {
    fn from(value: f32) -> Self {
        AvailableSpace::Definite(value)
    }
}

impl Size<AvailableSpace> {
    const MAX_CONTENT: Self = Self { width: AvailableSpace::MaxContent, height: AvailableSpace::MaxContent };
    const MIN_CONTENT: Self = Self { width: AvailableSpace::MinContent, height: AvailableSpace::MinContent };
}

// ---- arithmetic with numbers that may be absent: what is absent on the right changes nothing, what is absent on the left stays so

trait MaybeMath<In, Out> {
    fn maybe_min(self, rhs: In) -> Out;
    fn maybe_max(self, rhs: In) -> Out;
    fn maybe_clamp(self, min: In, max: In) -> Out;
    fn maybe_add(self, rhs: In) -> Out;
    fn maybe_sub(self, rhs: In) -> Out;
}

impl MaybeMath<Option<f32>, f32> for f32 {
    fn maybe_min(self, rhs: Option<f32>) -> f32 {
        rhs.map_or(self, |value| self.min(value))
    }
    fn maybe_max(self, rhs: Option<f32>) -> f32 {
        rhs.map_or(self, |value| self.max(value))
    }
    fn maybe_clamp(self, min: Option<f32>, max: Option<f32>) -> f32 {
        self.maybe_min(max).maybe_max(min)
    }
    fn maybe_add(self, rhs: Option<f32>) -> f32 {
        rhs.map_or(self, |value| self + value)
    }
    fn maybe_sub(self, rhs: Option<f32>) -> f32 {
        rhs.map_or(self, |value| self - value)
    }
}

impl MaybeMath<Option<f32>, Option<f32>> for Option<f32> {
    fn maybe_min(self, rhs: Option<f32>) -> Option<f32> {
        self.map(|value| value.maybe_min(rhs))
    }
    fn maybe_max(self, rhs: Option<f32>) -> Option<f32> {
        self.map(|value| value.maybe_max(rhs))
    }
    fn maybe_clamp(self, min: Option<f32>, max: Option<f32>) -> Option<f32> {
        self.map(|value| value.maybe_clamp(min, max))
    }
    fn maybe_add(self, rhs: Option<f32>) -> Option<f32> {
        self.map(|value| value.maybe_add(rhs))
    }
    fn maybe_sub(self, rhs: Option<f32>) -> Option<f32> {
        self.map(|value| value.maybe_sub(rhs))
    }
}

impl MaybeMath<f32, Option<f32>> for Option<f32> {
    fn maybe_min(self, rhs: f32) -> Option<f32> {
        self.maybe_min(Some(rhs))
    }
    fn maybe_max(self, rhs: f32) -> Option<f32> {
        self.maybe_max(Some(rhs))
    }
    fn maybe_clamp(self, min: f32, max: f32) -> Option<f32> {
        self.maybe_clamp(Some(min), Some(max))
    }
    fn maybe_add(self, rhs: f32) -> Option<f32> {
        self.maybe_add(Some(rhs))
    }
    fn maybe_sub(self, rhs: f32) -> Option<f32> {
        self.maybe_sub(Some(rhs))
    }
}

impl MaybeMath<Option<f32>, AvailableSpace> for AvailableSpace {
    fn maybe_min(self, rhs: Option<f32>) -> AvailableSpace {
        self.map_definite_value(|value| value.maybe_min(rhs))
    }
    fn maybe_max(self, rhs: Option<f32>) -> AvailableSpace {
        self.map_definite_value(|value| value.maybe_max(rhs))
    }
    fn maybe_clamp(self, min: Option<f32>, max: Option<f32>) -> AvailableSpace {
        self.map_definite_value(|value| value.maybe_clamp(min, max))
    }
    fn maybe_add(self, rhs: Option<f32>) -> AvailableSpace {
        self.map_definite_value(|value| value.maybe_add(rhs))
    }
    fn maybe_sub(self, rhs: Option<f32>) -> AvailableSpace {
        self.map_definite_value(|value| value.maybe_sub(rhs))
    }
}

impl MaybeMath<f32, AvailableSpace> for AvailableSpace {
    fn maybe_min(self, rhs: f32) -> AvailableSpace {
        self.maybe_min(Some(rhs))
    }
    fn maybe_max(self, rhs: f32) -> AvailableSpace {
        self.maybe_max(Some(rhs))
    }
    fn maybe_clamp(self, min: f32, max: f32) -> AvailableSpace {
        self.maybe_clamp(Some(min), Some(max))
    }
    fn maybe_add(self, rhs: f32) -> AvailableSpace {
        self.maybe_add(Some(rhs))
    }
    fn maybe_sub(self, rhs: f32) -> AvailableSpace {
        self.maybe_sub(Some(rhs))
    }
}

impl MaybeMath<Size<f32>, Size<Option<f32>>> for Size<Option<f32>> {
    fn maybe_min(self, rhs: Size<f32>) -> Size<Option<f32>> {
        self.zip_map(rhs, |a, b| a.maybe_min(b))
    }
    fn maybe_max(self, rhs: Size<f32>) -> Size<Option<f32>> {
        self.zip_map(rhs, |a, b| a.maybe_max(b))
    }
    fn maybe_clamp(self, min: Size<f32>, max: Size<f32>) -> Size<Option<f32>> {
        self.maybe_min(max).maybe_max(min)
    }
    fn maybe_add(self, rhs: Size<f32>) -> Size<Option<f32>> {
        self.zip_map(rhs, |a, b| a.maybe_add(b))
    }
    fn maybe_sub(self, rhs: Size<f32>) -> Size<Option<f32>> {
        self.zip_map(rhs, |a, b| a.maybe_sub(b))
    }
}

/// Lengths are lengths: no percentage is ever said.
trait MaybeResolve<In, Out> {
    fn maybe_resolve(self, context: In, calc: impl Fn(*const (), f32) -> f32) -> Out;
}

impl MaybeResolve<Option<f32>, Option<f32>> for Dimension {
    fn maybe_resolve(self, _: Option<f32>, _: impl Fn(*const (), f32) -> f32) -> Option<f32> {
        self.length()
    }
}

impl MaybeResolve<Size<Option<f32>>, Size<Option<f32>>> for Size<Dimension> {
    fn maybe_resolve(self, _: Size<Option<f32>>, _: impl Fn(*const (), f32) -> f32) -> Size<Option<f32>> {
        self.map(|d| d.length())
    }
}

enum SizingKeywordResolution {
    Exact(f32),
    Measure(AvailableSpace),
}

/// There are no sizing keywords.
fn resolve_sizing_keyword(
    _: Dimension,
    _: Option<f32>,
    _: Option<f32>,
    _: impl Fn(*const (), f32) -> f32,
) -> Option<SizingKeywordResolution> {
    None
}

// ---- the tree: items that the host has measured

#[derive(Clone, Copy, PartialEq)]
enum SizingMode {
    ContentSize,
}

#[derive(Clone, Copy, PartialEq)]
enum RunMode {
    ComputeSize,
}

enum RequestedAxis {
    Horizontal,
    Vertical,
}

impl From<AbsoluteAxis> for RequestedAxis {
    fn from(axis: AbsoluteAxis) -> Self {
        match axis {
            AbsoluteAxis::Horizontal => RequestedAxis::Horizontal,
            AbsoluteAxis::Vertical => RequestedAxis::Vertical,
        }
    }
}

struct LayoutInput {
    run_mode: RunMode,
    sizing_mode: SizingMode,
    axis: RequestedAxis,
    known_dimensions: Size<Option<f32>>,
    known_dimensions_are_definite: Size<bool>,
    parent_size: Size<Option<f32>>,
    available_space: Size<AvailableSpace>,
    vertical_margins_are_collapsible: Line<bool>,
}

struct LayoutOutput {
    size: Size<f32>,
}

trait CoreStyle {
    fn box_sizing(&self) -> BoxSizing;
}

#[derive(Clone, Copy)]
struct ItemStyle {
    flex_basis: f32,
    max_size: Size<Dimension>,
}

impl CoreStyle for ItemStyle {
    fn box_sizing(&self) -> BoxSizing {
        BoxSizing::BorderBox
    }
}

impl ItemStyle {
    fn flex_basis(&self) -> Dimension {
        Dimension(CompactLength::length(self.flex_basis))
    }
    fn max_size(&self) -> Size<Dimension> {
        self.max_size
    }
}

trait LayoutFlexboxContainer {
    fn get_flexbox_child_style(&self, node: NodeId) -> ItemStyle;
    fn calc(&self, value: *const (), basis: f32) -> f32;
    #[allow(clippy::too_many_arguments)]
    fn measure_child_size(
        &mut self,
        node: NodeId,
        known: Size<Option<f32>>,
        parent: Size<Option<f32>>,
        available: Size<AvailableSpace>,
        mode: SizingMode,
        axis: AbsoluteAxis,
        collapsible: Line<bool>,
    ) -> f32;
    fn compute_child_layout(&mut self, node: NodeId, input: LayoutInput) -> LayoutOutput;
}

/// The records that C hands over, and the direction that they lie in.
struct Measured<'a> {
    dir: FlexDirection,
    items: &'a [Item],
}

impl LayoutFlexboxContainer for Measured<'_> {
    fn get_flexbox_child_style(&self, node: NodeId) -> ItemStyle {
        let item = &self.items[node];
        let dimension = |has, value| Dimension(given(has, value).map_or(CompactLength::Auto, CompactLength::length));
        let main = dimension(item.has_main_maximum, item.main_maximum);
        ItemStyle {
            flex_basis: item.main_base,
            max_size: along(self.dir, main, dimension(item.has_cross_maximum, item.cross_maximum)),
        }
    }
    fn calc(&self, _: *const (), _: f32) -> f32 {
        unreachable!()
    }
    fn measure_child_size(
        &mut self,
        _: NodeId,
        _: Size<Option<f32>>,
        _: Size<Option<f32>>,
        _: Size<AvailableSpace>,
        _: SizingMode,
        _: AbsoluteAxis,
        _: Line<bool>,
    ) -> f32 {
        unreachable!("every item has a base and a minimum")
    }
    /// Only the cross size is ever asked for: the host has measured it.
    fn compute_child_layout(&mut self, node: NodeId, _: LayoutInput) -> LayoutOutput {
        LayoutOutput { size: along(self.dir, f32::NAN, self.items[node].cross_measured) }
    }
}

include!(env!("JUDGE_CUT"));

// ---- what C hands over; the layout is judge.h's

#[repr(C)]
#[derive(Clone, Copy)]
pub struct Item {
    main_base: f32,
    main_minimum: f32,
    main_maximum: f32,
    main_edges: f32,
    grow: f32,
    shrink: f32,
    main_start: f32,
    main_end: f32,
    cross_measured: f32,
    cross_minimum: f32,
    cross_maximum: f32,
    cross_edges: f32,
    cross_start: f32,
    cross_end: f32,
    has_main_maximum: u32,
    auto_main_start: u32,
    auto_main_end: u32,
    has_cross_maximum: u32,
    auto_cross_start: u32,
    auto_cross_end: u32,
    align_self: u32,
    auto_cross_size: u32,
}

#[repr(C)]
#[derive(Clone, Copy)]
pub struct Container {
    inner_main: f32,
    gap_main: f32,
    limit_kind: u32,
    limit: f32,
    minimum_lines: u32,
    direction: u32,
    wrap: u32,
    justify_content: u32,
    align_content: u32,
    inner_cross: f32,
    has_inner_cross: u32,
    minimum_cross: f32,
    has_minimum_cross: u32,
    maximum_cross: f32,
    has_maximum_cross: u32,
    gap_cross: f32,
}

fn given(has: u32, value: f32) -> Option<f32> {
    (has != 0).then_some(value)
}

fn along<T>(dir: FlexDirection, main: T, cross: T) -> Size<T> {
    if dir.is_row() { Size { width: main, height: cross } } else { Size { width: cross, height: main } }
}

fn sides<T>(dir: FlexDirection, main: (T, T), cross: (T, T)) -> Rect<T> {
    if dir.is_row() {
        Rect { left: main.0, right: main.1, top: cross.0, bottom: cross.1 }
    } else {
        Rect { left: cross.0, right: cross.1, top: main.0, bottom: main.1 }
    }
}

fn direction_of(code: u32) -> FlexDirection {
    [FlexDirection::Row, FlexDirection::RowReverse, FlexDirection::Column, FlexDirection::ColumnReverse][code as usize]
}

fn space_of(kind: u32, value: f32) -> AvailableSpace {
    match kind {
        0 => AvailableSpace::Definite(value),
        1 => AvailableSpace::MinContent,
        _ => AvailableSpace::MaxContent,
    }
}

fn safety_of(code: u32) -> AlignmentSafety {
    if (5..10).contains(&code) { AlignmentSafety::Safe } else { AlignmentSafety::Unsafe }
}

fn content_of(code: u32) -> AlignContent {
    use AlignContentKeyword::*;
    let positions = [Start, End, FlexStart, FlexEnd, Center];
    let others = [Stretch, SpaceBetween, SpaceAround, SpaceEvenly];
    let keyword = if code < 10 { positions[code as usize % 5] } else { others[code as usize - 10] };
    AlignContent { keyword, safety: safety_of(code) }
}

/// 10 is stretch, 11 `safe stretch`, which no host can say.
fn self_of(code: u32) -> AlignItems {
    use AlignItemsKeyword::*;
    if code >= 10 {
        let safety = if code == 11 { AlignmentSafety::Safe } else { AlignmentSafety::Unsafe };
        return AlignItems { keyword: Stretch, safety };
    }
    AlignItems { keyword: [Start, End, FlexStart, FlexEnd, Center][code as usize % 5], safety: safety_of(code) }
}

/// An item as `generate_anonymous_flex_items` would hand it on.
fn flex_item(node: usize, it: &Item, dir: FlexDirection) -> FlexItem {
    let or_auto = |auto: u32, value: f32| if auto != 0 { 0.0 } else { value };
    let cross = if it.auto_cross_size != 0 { None } else { Some(it.cross_measured) };
    let none = Size { width: 0.0, height: 0.0 };
    FlexItem {
        node,
        order: node as u32,
        size: along(dir, None, cross),
        size_style: along(dir, None, cross).map(|size| Dimension(size.map_or(CompactLength::Auto, CompactLength::length))),
        min_size: along(dir, Some(it.main_minimum), Some(it.cross_minimum)),
        max_size: along(dir, given(it.has_main_maximum, it.main_maximum), given(it.has_cross_maximum, it.cross_maximum)),
        aspect_ratio: None,
        align_self: self_of(it.align_self),
        overflow: Point { x: Overflow::Visible, y: Overflow::Visible },
        contain: (),
        scrollbar_width: 0.0,
        flex_shrink: it.shrink,
        flex_grow: it.grow,
        flex_basis_is_definite: false,
        resolved_minimum_main_size: 0.0,
        relative_inset: none,
        margin: sides(
            dir,
            (or_auto(it.auto_main_start, it.main_start), or_auto(it.auto_main_end, it.main_end)),
            (or_auto(it.auto_cross_start, it.cross_start), or_auto(it.auto_cross_end, it.cross_end)),
        ),
        margin_is_auto: sides(
            dir,
            (it.auto_main_start != 0, it.auto_main_end != 0),
            (it.auto_cross_start != 0, it.auto_cross_end != 0),
        ),
        padding: sides(dir, (it.main_edges, 0.0), (it.cross_edges, 0.0)),
        border: sides(dir, (0.0, 0.0), (0.0, 0.0)),
        flex_basis: 0.0,
        inner_flex_basis: 0.0,
        violation: 0.0,
        frozen: false,
        content_flex_fraction: 0.0,
        hypothetical_inner_size: none,
        hypothetical_outer_size: none,
        target_size: none,
        outer_target_size: none,
        baseline: 0.0,
        offset_main: 0.0,
        offset_cross: 0.0,
        oof_candidates: (),
    }
}

/// A container without padding and border, whose main size is definite.
fn constants_of(c: &Container) -> AlgoConstants {
    let dir = direction_of(c.direction);
    let size = along(dir, Some(c.inner_main), given(c.has_inner_cross, c.inner_cross));
    let no_sides = sides(dir, (0.0, 0.0), (0.0, 0.0));
    AlgoConstants {
        dir,
        layout_direction: Direction::Ltr,
        is_row: dir.is_row(),
        is_column: dir.is_column(),
        is_wrap: c.wrap != 0,
        is_wrap_reverse: c.wrap == 2 || c.wrap == 4,
        is_balance: c.wrap >= 3,
        line_count: if c.wrap != 0 { Some(c.minimum_lines.min(u16::MAX as u32) as u16) } else { None },
        min_size: along(dir, None, given(c.has_minimum_cross, c.minimum_cross)),
        max_size: along(dir, None, given(c.has_maximum_cross, c.maximum_cross)),
        border: no_sides,
        content_box_inset: no_sides,
        scrollbar_gutter: Point { x: 0.0, y: 0.0 },
        gap: along(dir, c.gap_main, c.gap_cross),
        align_items: AlignItems::STRETCH,
        align_content: content_of(c.align_content),
        justify_content: content_of(c.justify_content),
        node_outer_size: size,
        node_inner_size: size,
        known_main_size_is_definite: true,
        has_definite_main_size: true,
        has_definite_cross_size: c.has_inner_cross != 0,
        cross_axis_available_space_is_definite: c.has_inner_cross != 0,
        container_size: along(dir, c.inner_main, 0.0),
        inner_container_size: along(dir, c.inner_main, 0.0),
    }
}

unsafe fn slice<'a, T>(at: *const T, n: usize) -> &'a [T] {
    if n == 0 { &[] } else { std::slice::from_raw_parts(at, n) }
}

unsafe fn slice_mut<'a, T>(at: *mut T, n: usize) -> &'a mut [T] {
    if n == 0 { &mut [] } else { std::slice::from_raw_parts_mut(at, n) }
}

fn items_of(items: &[Item], dir: FlexDirection) -> Vec<FlexItem> {
    items.iter().enumerate().map(|(node, item)| flex_item(node, item, dir)).collect()
}

// ---- breaking

/// What the break limit and breaking turn on.
#[repr(C)]
pub struct Breaking {
    known_is_definite: u32,
    main_is_definite: u32,
    is_row: u32,
    available_kind: u32,
    available: f32,
    has_minimum: u32,
    minimum: f32,
    has_maximum: u32,
    maximum: f32,
    gap: f32,
    line_count: u32,
}

const NO_ITEM: Item = Item {
    main_base: 0.0,
    main_minimum: 0.0,
    main_maximum: 0.0,
    main_edges: 0.0,
    grow: 0.0,
    shrink: 0.0,
    main_start: 0.0,
    main_end: 0.0,
    cross_measured: 0.0,
    cross_minimum: 0.0,
    cross_maximum: 0.0,
    cross_edges: 0.0,
    cross_start: 0.0,
    cross_end: 0.0,
    has_main_maximum: 0,
    auto_main_start: 0,
    auto_main_end: 0,
    has_cross_maximum: 0,
    auto_cross_start: 0,
    auto_cross_end: 0,
    align_self: 0,
    auto_cross_size: 0,
};

const NO_CONTAINER: Container = Container {
    inner_main: 0.0,
    gap_main: 0.0,
    limit_kind: 2,
    limit: 0.0,
    minimum_lines: 1,
    direction: 0,
    wrap: 0,
    justify_content: 0,
    align_content: 0,
    inner_cross: 0.0,
    has_inner_cross: 0,
    minimum_cross: 0.0,
    has_minimum_cross: 0,
    maximum_cross: 0.0,
    has_maximum_cross: 0,
    gap_cross: 0.0,
};

/// Items of which only the hypothetical outer main size is known, for breaking.
#[no_mangle]
pub unsafe extern "C" fn judge_items(sizes: *const f32, n: usize) -> *mut Vec<FlexItem> {
    let sized = |(node, size): (usize, &f32)| {
        let mut item = flex_item(node, &NO_ITEM, FlexDirection::Row);
        item.hypothetical_outer_size = Size { width: *size, height: *size };
        item
    };
    Box::into_raw(Box::new(slice(sizes, n).iter().enumerate().map(sized).collect()))
}

#[no_mangle]
pub unsafe extern "C" fn judge_drop(items: *mut Vec<FlexItem>) {
    drop(Box::from_raw(items));
}

/// A wrapping container of which only what breaking turns on is known.
fn breaking_of(b: &Breaking) -> (AlgoConstants, Size<AvailableSpace>) {
    let direction = if b.is_row != 0 { 0 } else { 2 };
    let frame = Container { gap_main: b.gap, minimum_lines: b.line_count, direction, wrap: 1, ..NO_CONTAINER };
    let mut constants = constants_of(&frame);
    constants.known_main_size_is_definite = b.known_is_definite != 0;
    constants.has_definite_main_size = b.main_is_definite != 0;
    constants.min_size = along(constants.dir, given(b.has_minimum, b.minimum), None);
    constants.max_size = along(constants.dir, given(b.has_maximum, b.maximum), None);
    let available = along(constants.dir, space_of(b.available_kind, b.available), AvailableSpace::MaxContent);
    (constants, available)
}

/// The limit that greedy lines of a known main size break against; an infinity where it is none.
#[no_mangle]
pub unsafe extern "C" fn judge_limit(b: &Breaking) -> f32 {
    let (constants, available) = breaking_of(b);
    lines_break_at(&constants, available).into_option().unwrap_or(f32::INFINITY)
}

/// Breaks as a wrapping container does. `counts` has a cell more than there are items: no items can still be one line.
#[no_mangle]
pub unsafe extern "C" fn judge_lines(balanced: u32, b: &Breaking, items: *mut Vec<FlexItem>, counts: *mut u32) -> usize {
    let (constants, available) = breaking_of(b);
    let lines = if balanced != 0 {
        collect_balanced_flex_lines(&constants, available, &mut *items)
    } else {
        collect_flex_lines(&constants, available, &mut *items)
    };
    for (i, line) in lines.iter().enumerate() {
        *counts.add(i) = line.items.len() as u32;
    }
    lines.len()
}

/// The module `balance` alone, for timing: max-content is an infinite limit, as the crate's caller hands it over.
#[no_mangle]
pub unsafe extern "C" fn judge_balance(limit: f32, gap: f32, minimum: usize, sizes: *const f32, n: usize, counts: *mut u32) -> usize {
    let lines = balance::balanced_line_item_counts(slice(sizes, n).iter().copied(), limit, gap, minimum);
    for (i, count) in lines.iter().enumerate() {
        *counts.add(i) = *count as u32;
    }
    lines.len()
}

// ---- stages of one line, or of a container's lines

/// Flexes the items as one line: their flex base sizes, then 9.7.
#[no_mangle]
pub unsafe extern "C" fn judge_flex(c: &Container, items: *const Item, n: usize, targets: *mut f32) {
    let constants = constants_of(c);
    let items = slice(items, n);
    let mut flexed = items_of(items, constants.dir);
    let mut tree = Measured { dir: constants.dir, items };
    determine_flex_base_size(&mut tree, &constants, Size::MAX_CONTENT, &mut flexed);
    let mut line = FlexLine { items: &mut flexed, cross_size: 0.0, offset_cross: 0.0 };
    resolve_flexible_lengths(&mut line, &constants);
    for (target, item) in slice_mut(targets, n).iter_mut().zip(line.items.iter()) {
        *target = item.target_size.main(constants.dir);
    }
}

/// A line whose items have their flex base sizes, for timing 9.7 alone.
pub struct Flexible {
    constants: AlgoConstants,
    items: Vec<FlexItem>,
}

#[no_mangle]
pub unsafe extern "C" fn judge_line_of(c: &Container, items: *const Item, n: usize) -> *mut Flexible {
    let constants = constants_of(c);
    let items = slice(items, n);
    let mut flexed = items_of(items, constants.dir);
    let mut tree = Measured { dir: constants.dir, items };
    determine_flex_base_size(&mut tree, &constants, Size::MAX_CONTENT, &mut flexed);
    Box::into_raw(Box::new(Flexible { constants, items: flexed }))
}

/// The items are unfrozen first, as they are when the crate makes them.
#[no_mangle]
pub unsafe extern "C" fn judge_line_flex(line: &mut Flexible) {
    for item in line.items.iter_mut() {
        item.frozen = false;
    }
    resolve_flexible_lengths(&mut FlexLine { items: &mut line.items, cross_size: 0.0, offset_cross: 0.0 }, &line.constants);
}

#[no_mangle]
pub unsafe extern "C" fn judge_line_targets(line: &Flexible, targets: *mut f32) {
    for (target, item) in slice_mut(targets, line.items.len()).iter_mut().zip(line.items.iter()) {
        *target = item.target_size.main(line.constants.dir);
    }
}

#[no_mangle]
pub unsafe extern "C" fn judge_line_drop(line: *mut Flexible) {
    drop(Box::from_raw(line));
}

/// One line along the main axis, on worked-out targets. `placed` has three lists of n: offsets, used start margins, used end margins.
#[no_mangle]
pub unsafe extern "C" fn judge_main(c: &Container, items: *const Item, targets: *const f32, n: usize, placed: *mut f32) {
    let constants = constants_of(c);
    let dir = constants.dir;
    let mut placing = items_of(slice(items, n), dir);
    for (item, target) in placing.iter_mut().zip(slice(targets, n)) {
        item.outer_target_size.set_main(dir, *target + item.margin.main_axis_sum(dir));
    }
    distribute_remaining_free_space(&mut [FlexLine { items: &mut placing, cross_size: 0.0, offset_cross: 0.0 }], &constants);
    let placed = slice_mut(placed, 3 * n);
    for (i, item) in placing.iter().enumerate() {
        placed[i] = item.offset_main;
        placed[n + i] = item.margin.main_start(dir);
        placed[2 * n + i] = item.margin.main_end(dir);
    }
}

/// The cross size of one line of at least one item.
#[no_mangle]
pub unsafe extern "C" fn judge_cross_size(c: &Container, items: *const Item, n: usize) -> f32 {
    let constants = constants_of(c);
    let items = slice(items, n);
    let mut sized = items_of(items, constants.dir);
    let mut line = [FlexLine { items: &mut sized, cross_size: 0.0, offset_cross: 0.0 }];
    let mut tree = Measured { dir: constants.dir, items };
    determine_hypothetical_cross_size(&mut tree, &mut line[0], &constants, constants.node_inner_size, Size::MAX_CONTENT);
    calculate_cross_size(&mut line, constants.node_inner_size, &constants);
    line[0].cross_size
}

/// Lines along the cross axis: `placed` has two lists of n, sizes and offsets. Answers the inner cross size.
#[no_mangle]
pub unsafe extern "C" fn judge_across_lines(c: &Container, sizes: *const f32, n: usize, placed: *mut f32) -> f32 {
    let mut constants = constants_of(c);
    let node_size = constants.node_inner_size;
    let mut nothing: Vec<Vec<FlexItem>> = (0..n).map(|_| Vec::new()).collect();
    let mut lines: Vec<FlexLine> = nothing
        .iter_mut()
        .zip(slice(sizes, n))
        .map(|(items, size)| FlexLine { items: items.as_mut_slice(), cross_size: *size, offset_cross: 0.0 })
        .collect();
    handle_align_content_stretch(&mut lines, node_size, &constants);
    let total = determine_container_cross_size(&lines, node_size, &mut constants);
    align_flex_lines_per_align_content(&mut lines, &constants, total);
    let placed = slice_mut(placed, 2 * n);
    for (i, line) in lines.iter().enumerate() {
        placed[i] = line.cross_size;
        placed[n + i] = line.offset_cross;
    }
    constants.inner_container_size.cross(constants.dir)
}

/// One line's items across it: `placed` has four lists of n, sizes, used start margins, used end margins, offsets.
#[no_mangle]
pub unsafe extern "C" fn judge_across(c: &Container, line: f32, items: *const Item, n: usize, placed: *mut f32) {
    let constants = constants_of(c);
    let dir = constants.dir;
    let items = slice(items, n);
    let mut placing = items_of(items, dir);
    let mut lines = [FlexLine { items: &mut placing, cross_size: line, offset_cross: 0.0 }];
    let mut tree = Measured { dir, items };
    determine_hypothetical_cross_size(&mut tree, &mut lines[0], &constants, constants.node_inner_size, Size::MAX_CONTENT);
    determine_used_cross_size(&tree, &mut lines, &constants);
    resolve_cross_axis_auto_margins(&mut lines, &constants);
    let placed = slice_mut(placed, 4 * n);
    for (i, item) in placing.iter().enumerate() {
        placed[i] = item.target_size.cross(dir);
        placed[n + i] = item.margin.cross_start(dir);
        placed[2 * n + i] = item.margin.cross_end(dir);
        placed[3 * n + i] = item.offset_cross;
    }
}

// ---- the whole pass, in the order of `compute_preliminary`

/// Of at least one item. `placed` has eight lists of n, `lines` two, as fratolivem_pass lends them, and `counts` one; answers the lines.
#[no_mangle]
pub unsafe extern "C" fn judge_pass(
    c: &Container,
    items: *const Item,
    n: usize,
    placed: *mut f32,
    lines: *mut f32,
    counts: *mut u32,
    inner_cross: *mut f32,
) -> usize {
    let mut constants = constants_of(c);
    let dir = constants.dir;
    let node_size = constants.node_inner_size;
    let items = slice(items, n);
    let available = along(dir, space_of(c.limit_kind, c.limit), AvailableSpace::MaxContent);
    let mut tree = Measured { dir, items };
    let mut flex_items = items_of(items, dir);
    determine_flex_base_size(&mut tree, &constants, available, &mut flex_items);
    let mut flex_lines = if constants.is_balance {
        collect_balanced_flex_lines(&constants, available, &mut flex_items)
    } else {
        collect_flex_lines(&constants, available, &mut flex_items)
    };
    for line in &mut flex_lines {
        resolve_flexible_lengths(line, &constants);
    }
    for line in &mut flex_lines {
        determine_hypothetical_cross_size(&mut tree, line, &constants, node_size, available);
    }
    calculate_cross_size(&mut flex_lines, node_size, &constants);
    handle_align_content_stretch(&mut flex_lines, node_size, &constants);
    determine_used_cross_size(&tree, &mut flex_lines, &constants);
    distribute_remaining_free_space(&mut flex_lines, &constants);
    resolve_cross_axis_auto_margins(&mut flex_lines, &constants);
    let total = determine_container_cross_size(&flex_lines, node_size, &mut constants);
    align_flex_lines_per_align_content(&mut flex_lines, &constants, total);

    let placed = slice_mut(placed, 8 * n);
    let (mut i, made) = (0, flex_lines.len());
    for (j, line) in flex_lines.iter().enumerate() {
        *lines.add(j) = line.cross_size;
        *lines.add(n + j) = line.offset_cross;
        *counts.add(j) = line.items.len() as u32;
        for item in line.items.iter() {
            let cells = [
                item.target_size.main(dir),
                item.offset_main,
                item.margin.main_start(dir),
                item.margin.main_end(dir),
                item.target_size.cross(dir),
                item.offset_cross,
                item.margin.cross_start(dir),
                item.margin.cross_end(dir),
            ];
            for (list, cell) in cells.iter().enumerate() {
                placed[list * n + i] = *cell;
            }
            i += 1;
        }
    }
    *inner_cross = constants.inner_container_size.cross(dir);
    made
}
