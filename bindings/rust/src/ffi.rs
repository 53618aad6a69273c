//! The part of `bindings/c/tikeburo.h` that this crate calls.
#![allow(non_camel_case_types)]

use std::os::raw::c_void;

pub const DONE: i32 = 0;
pub const MEMORY: i32 = 1;
pub const UNREADABLE: i32 = 2;
pub const TRUNCATED: i32 = 3;
pub const REGION: i32 = 4;
pub const NUMBERS: i32 = 5;
pub const RANGE: i32 = 8;
pub const SHORT: i32 = 9;
pub const OTHER_WIDTHS: i32 = 10;
pub const CHANGE_TEXT: u8 = 0;
pub const CHANGE_TITLE: u8 = 1;
pub const CHANGE_LINK: u8 = 2;
pub const CHANGE_NO_LINK: u8 = 3;
pub const CHANGE_PEN: u8 = 4;
pub const CHANGE_INTENSITY: u8 = 5;
pub const CHANGE_UNDERLINE: u8 = 6;
pub const CHANGE_BLINK: u8 = 7;
pub const CHANGE_ITALIC: u8 = 8;
pub const CHANGE_REVERSE: u8 = 9;
pub const CHANGE_STRIKETHROUGH: u8 = 10;
pub const CHANGE_INVISIBLE: u8 = 11;
pub const CHANGE_FOREGROUND: u8 = 12;
pub const CHANGE_BACKGROUND: u8 = 13;
pub const CHANGE_MOVE: u8 = 14;
pub const CHANGE_CLEAR_SCREEN: u8 = 15;
pub const CHANGE_CLEAR_TO_END_OF_LINE: u8 = 16;
pub const CHANGE_CLEAR_TO_END_OF_SCREEN: u8 = 17;
pub const CHANGE_SCROLL_UP: u8 = 18;
pub const CHANGE_SCROLL_DOWN: u8 = 19;
pub const CHANGE_CURSOR_VISIBILITY: u8 = 20;
pub const CHANGE_CURSOR_SHAPE: u8 = 21;
pub const CHANGE_CURSOR_COLOR: u8 = 22;
pub const CHANGE_LINE_ATTRIBUTE: u8 = 23;

#[repr(C)]
pub struct tk_handle {
    pub at: *mut c_void,
    pub is_live: bool,
}

#[repr(C)]
pub struct tk_width_range {
    pub first: u32,
    pub last: u32,
    pub columns: u8,
}

#[repr(C)]
#[derive(Clone, Copy, PartialEq, Eq, Default)]
pub struct tk_color {
    pub kind: u8,
    pub red: u8,
    pub green: u8,
    pub blue: u8,
    pub index: u8,
}

#[repr(C)]
#[derive(Clone, Copy, PartialEq, Eq, Default)]
pub struct tk_attributes {
    pub intensity: u8,
    pub underline: u8,
    pub blink: u8,
    pub semantic_type: u8,
    pub vertical_align: u8,
    pub italic: bool,
    pub reverse: bool,
    pub strikethrough: bool,
    pub invisible: bool,
    pub wrapped: bool,
    pub overline: bool,
    pub foreground: tk_color,
    pub background: tk_color,
    pub underline_color: tk_color,
}

#[repr(C)]
#[derive(Default)]
pub struct tk_cell {
    pub columns: u8,
    pub has_link: bool,
    pub attributes: tk_attributes,
}

#[repr(C)]
#[derive(Clone, Copy, PartialEq, Eq, Default)]
pub struct tk_change {
    pub kind: u8,
    pub attributes: tk_attributes,
    pub first: usize,
    pub second: usize,
    pub third: usize,
}

#[repr(C)]
#[derive(Default)]
pub struct tk_settings {
    pub source: usize,
    pub number: usize,
    pub is_full: bool,
    pub has_link: bool,
    pub cursor_shape: u8,
    pub cursor_color: tk_color,
    pub pen: tk_attributes,
}

#[repr(C)]
#[derive(Default)]
pub struct tk_fault {
    pub kind: u8,
    pub has_change: bool,
    pub at: usize,
    pub change: usize,
}

#[repr(C)]
#[derive(Clone, Copy, Default)]
pub struct tk_taken {
    pub kind: u8,
    pub at: usize,
}

#[repr(C)]
#[derive(Clone, Copy, Default)]
pub struct tk_row_cell {
    pub begin: usize,
    pub len: usize,
    pub run: usize,
    pub columns: u8,
    pub has_link: bool,
}

#[repr(C)]
#[derive(Clone, Copy, Default)]
pub struct tk_row_counts {
    pub cells: usize,
    pub attributes: usize,
    pub text: usize,
}

#[repr(C)]
#[derive(Default)]
pub struct tk_list_counts {
    pub changes: usize,
    pub texts: usize,
    pub number: usize,
}

#[repr(C)]
#[derive(Default)]
pub struct tk_head {
    pub source: usize,
    pub width: usize,
    pub height: usize,
    pub base: usize,
    pub number: usize,
    pub changes: usize,
}

extern "C" {
    pub fn tk_surface_new(
        surface: *mut tk_handle,
        width: usize,
        height: usize,
        widths: u8,
        source: usize,
    ) -> i32;
    pub fn tk_surface_new_by(
        surface: *mut tk_handle,
        width: usize,
        height: usize,
        ranges: *const tk_width_range,
        len: usize,
        source: usize,
    ) -> i32;
    pub fn tk_free_handle(handle: *mut tk_handle);
    pub fn tk_resize(surface: *mut tk_handle, width: usize, height: usize) -> i32;
    pub fn tk_number(handle: *mut tk_handle, number: *mut usize) -> i32;
    pub fn tk_size(handle: *mut tk_handle, width: *mut usize, height: *mut usize) -> i32;
    pub fn tk_cursor(handle: *mut tk_handle, column: *mut usize, row: *mut usize) -> i32;
    pub fn tk_cursor_is_visible(handle: *mut tk_handle, is_visible: *mut bool) -> i32;
    pub fn tk_title(handle: *mut tk_handle, text: *mut u8, room: usize, len: *mut usize) -> i32;
    pub fn tk_state(handle: *mut tk_handle, state: *mut tk_settings) -> i32;
    pub fn tk_pen_link(handle: *mut tk_handle, uri: *mut u8, room: usize, len: *mut usize) -> i32;
    pub fn tk_pen_link_param(
        handle: *mut tk_handle,
        index: usize,
        key: *mut u8,
        key_room: usize,
        key_len: *mut usize,
        value: *mut u8,
        value_room: usize,
        value_len: *mut usize,
    ) -> i32;
    pub fn tk_changed_rows(
        handle: *mut tk_handle,
        since: usize,
        rows: *mut u8,
        room: usize,
        count: *mut usize,
    ) -> i32;
    pub fn tk_screen_text(
        handle: *mut tk_handle,
        text: *mut u8,
        room: usize,
        len: *mut usize,
    ) -> i32;
    pub fn tk_row_text(
        handle: *mut tk_handle,
        row: usize,
        filled: bool,
        text: *mut u8,
        room: usize,
        len: *mut usize,
    ) -> i32;
    pub fn tk_line_attribute(handle: *mut tk_handle, row: usize, attribute: *mut u8) -> i32;
    pub fn tk_cell_at(
        handle: *mut tk_handle,
        column: usize,
        row: usize,
        cell: *mut tk_cell,
        text: *mut u8,
        room: usize,
        len: *mut usize,
    ) -> i32;
    pub fn tk_link_at(
        handle: *mut tk_handle,
        column: usize,
        row: usize,
        uri: *mut u8,
        room: usize,
        len: *mut usize,
    ) -> i32;
    pub fn tk_link_param_at(
        handle: *mut tk_handle,
        column: usize,
        row: usize,
        index: usize,
        key: *mut u8,
        key_room: usize,
        key_len: *mut usize,
        value: *mut u8,
        value_room: usize,
        value_len: *mut usize,
    ) -> i32;
    pub fn tk_row_cells(
        handle: *mut tk_handle,
        row: usize,
        cells: *mut tk_row_cell,
        cell_room: usize,
        attributes: *mut tk_attributes,
        attribute_room: usize,
        text: *mut u8,
        room: usize,
        counts: *mut tk_row_counts,
    ) -> i32;
    pub fn tk_shown_cells(
        handle: *mut tk_handle,
        row: usize,
        cells: *mut tk_row_cell,
        cell_room: usize,
        attributes: *mut tk_attributes,
        attribute_room: usize,
        text: *mut u8,
        room: usize,
        counts: *mut tk_row_counts,
    ) -> i32;
    pub fn tk_text_width(text: *const u8, len: usize, widths: u8, columns: *mut usize) -> i32;
    pub fn tk_text_width_by(
        text: *const u8,
        len: usize,
        ranges: *const tk_width_range,
        count: usize,
        columns: *mut usize,
    ) -> i32;
    pub fn tk_add_list_distinct(
        surface: *mut tk_handle,
        changes: *const tk_change,
        count: usize,
        texts: *const u8,
        len: usize,
        is_logged: bool,
        keeps_lines: bool,
        lines: *mut tk_handle,
    ) -> i32;
    pub fn tk_get_changes(
        handle: *mut tk_handle,
        since: usize,
        changes: *mut tk_change,
        change_room: usize,
        texts: *mut u8,
        room: usize,
        counts: *mut tk_list_counts,
    ) -> i32;
    pub fn tk_diff_screens_distinct(
        handle: *mut tk_handle,
        other: *mut tk_handle,
        changes: *mut tk_change,
        change_room: usize,
        texts: *mut u8,
        room: usize,
        counts: *mut tk_list_counts,
    ) -> i32;
    pub fn tk_diff_region_distinct(
        handle: *mut tk_handle,
        column: usize,
        row: usize,
        width: usize,
        height: usize,
        other: *mut tk_handle,
        other_column: usize,
        other_row: usize,
        changes: *mut tk_change,
        change_room: usize,
        texts: *mut u8,
        room: usize,
        counts: *mut tk_list_counts,
    ) -> i32;
    pub fn tk_draw_from_distinct(
        surface: *mut tk_handle,
        source: *mut tk_handle,
        column: usize,
        row: usize,
        width: usize,
        height: usize,
        to_column: usize,
        to_row: usize,
    ) -> i32;
    pub fn tk_copy(
        surface: *mut tk_handle,
        column: usize,
        row: usize,
        width: usize,
        height: usize,
        to_column: usize,
        to_row: usize,
    ) -> i32;
    pub fn tk_draw_region(
        surface: *mut tk_handle,
        column: usize,
        row: usize,
        width: usize,
        height: usize,
        to_column: usize,
        to_row: usize,
    ) -> i32;
    pub fn tk_draw_line_distinct(
        surface: *mut tk_handle,
        row: usize,
        lines: *mut tk_handle,
        index: usize,
    ) -> i32;
    pub fn tk_lines_new(lines: *mut tk_handle) -> i32;
    pub fn tk_lines_count(lines: *mut tk_handle, count: *mut usize) -> i32;
    pub fn tk_lines_push_row_distinct(
        lines: *mut tk_handle,
        source: *mut tk_handle,
        row: usize,
    ) -> i32;
    pub fn tk_lines_remove(lines: *mut tk_handle, first: usize, count: usize) -> i32;
    pub fn tk_line_cells(
        lines: *mut tk_handle,
        index: usize,
        cells: *mut tk_row_cell,
        cell_room: usize,
        attributes: *mut tk_attributes,
        attribute_room: usize,
        text: *mut u8,
        room: usize,
        counts: *mut tk_row_counts,
    ) -> i32;
    pub fn tk_lines_compress(lines: *mut tk_handle, first: usize, count: usize) -> i32;
    pub fn tk_lines_wrap(lines: *mut tk_handle, width: usize) -> i32;
    pub fn tk_viewer_new_distinct(viewer: *mut tk_handle, source: *mut tk_handle) -> i32;
    pub fn tk_follow_distinct(viewer: *mut tk_handle, source: *mut tk_handle) -> i32;
    pub fn tk_respond(
        surface: *mut tk_handle,
        ask: *const u8,
        ask_len: usize,
        bytes: *mut u8,
        room: usize,
        len: *mut usize,
    ) -> i32;
    pub fn tk_answer_head(bytes: *const u8, len: usize, head: *mut tk_head) -> i32;
    pub fn tk_client_new(client: *mut tk_handle, widths: u8, cells: usize, bytes: usize) -> i32;
    pub fn tk_client_new_by(
        client: *mut tk_handle,
        ranges: *const tk_width_range,
        len: usize,
        cells: usize,
        bytes: usize,
    ) -> i32;
    pub fn tk_client_feed(
        client: *mut tk_handle,
        bytes: *const u8,
        len: usize,
        taken: *mut usize,
        fault: *mut tk_fault,
    ) -> i32;
    pub fn tk_client_keep(
        client: *mut tk_handle,
        bytes: *const u8,
        len: usize,
        fault: *mut tk_fault,
    ) -> i32;
    pub fn tk_client_take_answer(
        client: *mut tk_handle,
        taken: *mut tk_taken,
        fault: *mut tk_fault,
    ) -> i32;
    pub fn tk_client_ask(
        client: *mut tk_handle,
        bytes: *mut u8,
        room: usize,
        len: *mut usize,
    ) -> i32;
    pub fn tk_client_reset(client: *mut tk_handle) -> i32;
}

#[cfg(test)]
mod tests {
    use super::*;
    use std::mem::size_of;

    // bindings/c/tests.c has the same numbers of the header's structs.
    #[test]
    fn structs_have_the_sizes_of_the_header() {
        assert_eq!(size_of::<tk_handle>(), 16);
        assert_eq!(size_of::<tk_color>(), 5);
        assert_eq!(size_of::<tk_attributes>(), 26);
        assert_eq!(size_of::<tk_cell>(), 28);
        assert_eq!(size_of::<tk_change>(), 56);
        assert_eq!(size_of::<tk_settings>(), 56);
        assert_eq!(size_of::<tk_fault>(), 24);
        assert_eq!(size_of::<tk_taken>(), 16);
        assert_eq!(size_of::<tk_row_cell>(), 32);
        assert_eq!(size_of::<tk_row_counts>(), 24);
        assert_eq!(size_of::<tk_list_counts>(), 24);
        assert_eq!(size_of::<tk_head>(), 48);
    }
}
