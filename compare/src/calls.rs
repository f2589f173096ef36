//! The calls of the two static archives: `host`, the museum's C calls, and `bridge`, a test library
//! that reaches the search, the look and the reasons with every condition and edition, the text that
//! `find` prints, a day's elements in an edition, a mean place with its left-over and divisor, the star
//! planets together, rows of records, the dates that libraries write, rows of month turns in an
//! edition, and almanac files block by block. A number of a refused call is 0, but with 7.

use crate::reference::records::Record;

#[link(name = "host", kind = "static")]
unsafe extern "C" {
    pub safe fn graha_date_result(year: u32, month: u32, day: u32) -> u32;
    pub safe fn graha_date_day(year: u32, month: u32, day: u32) -> u32;

    pub safe fn graha_day_result(day: u32) -> u32;
    pub safe fn graha_day_year(day: u32) -> u32;
    pub safe fn graha_day_month(day: u32) -> u32;
    pub safe fn graha_day_of_month(day: u32) -> u32;
    pub safe fn graha_day_cycle(day: u32) -> u32;
    pub safe fn graha_day_within(day: u32) -> u32;
    pub safe fn graha_day_weekday(day: u32) -> u32;

    pub safe fn graha_pair_result(cycle: u32, within: u32) -> u32;
    pub safe fn graha_pair_day(cycle: u32, within: u32) -> u32;
    pub safe fn graha_next_result(cycle: u32, within: u32) -> u32;
    pub safe fn graha_next_cycle(cycle: u32, within: u32) -> u32;
    pub safe fn graha_next_within(cycle: u32, within: u32) -> u32;

    pub safe fn graha_saka_result(year: u32, months: u32, tithis: u32, weekday: u32) -> u32;
    pub safe fn graha_saka_day(year: u32, months: u32, tithis: u32, weekday: u32) -> u32;
    /// Any `pending` but 0 sets the mark.
    pub safe fn graha_saka_pending_result(
        year: u32,
        months: u32,
        tithis: u32,
        weekday: u32,
        pending: u32,
    ) -> u32;
    pub safe fn graha_saka_pending_day(
        year: u32,
        months: u32,
        tithis: u32,
        weekday: u32,
        pending: u32,
    ) -> u32;

    pub safe fn graha_mean_sun(day: u32) -> u32;
    pub safe fn graha_mean_moon(day: u32) -> u32;
    pub safe fn graha_moon_apogee(day: u32) -> u32;
    pub safe fn graha_moon_node(day: u32) -> u32;
    pub safe fn graha_mean_mars(day: u32) -> u32;
    pub safe fn graha_mercury_anomaly(day: u32) -> u32;
    pub safe fn graha_mean_jupiter(day: u32) -> u32;
    pub safe fn graha_venus_anomaly(day: u32) -> u32;
    pub safe fn graha_mean_saturn(day: u32) -> u32;

    pub safe fn graha_mean_sun_thirds(day: u32) -> u32;
    pub safe fn graha_mean_moon_thirds(day: u32) -> u32;
    pub safe fn graha_moon_apogee_thirds(day: u32) -> u32;
    pub safe fn graha_moon_node_thirds(day: u32) -> u32;
    pub safe fn graha_mean_mars_thirds(day: u32) -> u32;
    pub safe fn graha_mercury_anomaly_thirds(day: u32) -> u32;
    pub safe fn graha_mean_jupiter_thirds(day: u32) -> u32;
    pub safe fn graha_venus_anomaly_thirds(day: u32) -> u32;
    pub safe fn graha_mean_saturn_thirds(day: u32) -> u32;

    pub safe fn graha_true_sun(day: u32) -> u32;
    pub safe fn graha_true_moon(day: u32) -> u32;
    pub safe fn graha_true_mars(day: u32) -> u32;
    pub safe fn graha_true_mercury(day: u32) -> u32;
    pub safe fn graha_true_jupiter(day: u32) -> u32;
    pub safe fn graha_true_venus(day: u32) -> u32;
    pub safe fn graha_true_saturn(day: u32) -> u32;
    pub safe fn graha_tithi(day: u32) -> u32;
    pub safe fn graha_nakshatra(day: u32) -> u32;
    pub safe fn graha_yoga(day: u32) -> u32;
    pub safe fn graha_karana(day: u32) -> u32;

    /// The list is `list_len` bytes from `list`, which the caller lends for the call.
    pub fn graha_search(
        first: u32,
        last: u32,
        sun_start: u32,
        sun_width: u32,
        weekday: u32,
        list: *mut u8,
        list_len: usize,
    ) -> u32;
    pub safe fn graha_search_length(
        first: u32,
        last: u32,
        sun_start: u32,
        sun_width: u32,
        weekday: u32,
    ) -> u32;
    pub safe fn graha_search_looked(
        first: u32,
        last: u32,
        sun_start: u32,
        sun_width: u32,
        weekday: u32,
    ) -> u32;

    /// The list is lent as the search's.
    pub fn graha_sign_entries(first: u32, last: u32, list: *mut u8, list_len: usize) -> u32;
    pub safe fn graha_sign_entries_length(first: u32, last: u32) -> u32;
    /// By the true Sun.
    pub fn graha_true_sign_entries(first: u32, last: u32, list: *mut u8, list_len: usize) -> u32;
    pub safe fn graha_true_sign_entries_length(first: u32, last: u32) -> u32;

    /// Leafing by lunar month, on a row with this number of turns and of days covered. The list is lent for
    /// the call, and is only read where a day is asked for.
    pub fn graha_months_extend(
        turns: u32,
        covered: u32,
        days: u32,
        list: *mut u8,
        list_len: usize,
    ) -> u32;
    pub safe fn graha_months_extended_turns(
        turns: u32,
        covered: u32,
        days: u32,
        list_len: usize,
    ) -> u32;
    pub fn graha_month_result(
        turns: u32,
        covered: u32,
        day: u32,
        list: *const u8,
        list_len: usize,
    ) -> u32;
    pub fn graha_month_start(
        turns: u32,
        covered: u32,
        day: u32,
        list: *const u8,
        list_len: usize,
    ) -> u32;
    pub fn graha_month_number(
        turns: u32,
        covered: u32,
        day: u32,
        list: *const u8,
        list_len: usize,
    ) -> u32;

    /// Almanac files. File, block and list are lent for the call.
    pub safe fn graha_almanac_bytes(first: u32, last: u32) -> u32;
    pub fn graha_almanac_write(first: u32, last: u32, file: *mut u8, file_len: usize) -> u32;
    pub fn graha_almanac_block(
        first: u32,
        last: u32,
        index: u32,
        block: *mut u8,
        block_len: usize,
    ) -> u32;
    pub fn graha_almanac_read(
        file: *const u8,
        file_len: usize,
        list: *mut u8,
        list_len: usize,
    ) -> u32;
    pub fn graha_almanac_days(file: *const u8, file_len: usize) -> u32;

    /// Orders for the arms: to go (1) to an angle, and to run (2) at a rate or to hold (0).
    pub safe fn graha_place_result(day: u32, body: u32) -> u32;
    pub safe fn graha_place_order(day: u32, body: u32) -> u32;
    pub safe fn graha_place_angle(day: u32, body: u32) -> f64;
    pub safe fn graha_follow_result(day: u32, body: u32) -> u32;
    pub safe fn graha_follow_order(day: u32, body: u32) -> u32;
    pub safe fn graha_follow_rate(day: u32, body: u32) -> f64;
    /// The same for true places.
    pub safe fn graha_true_place_result(day: u32, body: u32) -> u32;
    pub safe fn graha_true_place_order(day: u32, body: u32) -> u32;
    pub safe fn graha_true_place_angle(day: u32, body: u32) -> f64;
    pub safe fn graha_true_follow_result(day: u32, body: u32) -> u32;
    pub safe fn graha_true_follow_order(day: u32, body: u32) -> u32;
    pub safe fn graha_true_follow_rate(day: u32, body: u32) -> f64;
    /// An arm's state after an order and its value.
    pub safe fn graha_carry_out_result(angle: f64, rate: f64, order: u32, value: f64) -> u32;
    pub safe fn graha_carry_out_angle(angle: f64, rate: f64, order: u32, value: f64) -> f64;
    pub safe fn graha_carry_out_rate(angle: f64, rate: f64, order: u32, value: f64) -> f64;
}

#[link(name = "bridge", kind = "static")]
unsafe extern "C" {
    /// Query and list are lent for the call, as many bytes as each length says.
    pub fn bridge_search(query: *const u8, query_len: usize, list: *mut u8, list_len: usize)
        -> u32;
    /// The first days of the list, as many as there are entries, and 0 or the query's refusal.
    pub fn bridge_list_first(
        query: *const u8,
        query_len: usize,
        list: *mut u8,
        list_len: usize,
    ) -> u32;
    pub fn bridge_length(query: *const u8, query_len: usize) -> u32;
    pub fn bridge_looked(query: *const u8, query_len: usize) -> u32;

    /// Dates as libraries write them. The lower half of a number is the day, or year × 10000 + month ×
    /// 100 + day; the upper half is the refusal.
    pub safe fn bridge_iso_day(year: u32, month: u32, day: u32) -> u64;
    pub safe fn bridge_iso_date(day: u32) -> u64;
    /// Text and list are lent for the call. The lower half is the number of entries read or of bytes
    /// written, with 7 what would do; the upper half is the refusal.
    pub fn bridge_dates_to_list(
        text: *const u8,
        text_len: usize,
        list: *mut u8,
        list_len: usize,
    ) -> u64;
    pub fn bridge_days_to_list(
        text: *const u8,
        text_len: usize,
        list: *mut u8,
        list_len: usize,
    ) -> u64;
    pub fn bridge_list_to_dates(
        list: *const u8,
        list_len: usize,
        text: *mut u8,
        text_len: usize,
    ) -> u64;
    pub fn bridge_list_to_days(
        list: *const u8,
        list_len: usize,
        text: *mut u8,
        text_len: usize,
    ) -> u64;

    /// Leafing by lunar month in an edition. The upper half of a number is the refusal, and the lower half
    /// the turns after, or the days covered.
    pub safe fn bridge_months_new(edition: u32) -> u32;
    pub fn bridge_months_extend(
        edition: u32,
        turns: u32,
        covered: u32,
        days: u32,
        list: *mut u8,
        list_len: usize,
    ) -> u64;
    pub safe fn bridge_months_covered(
        edition: u32,
        turns: u32,
        covered: u32,
        days: u32,
        list_len: u32,
    ) -> u64;
    /// In the upper half the turns up to the latest one, and in the lower half its day; 0 where there is
    /// none, and with each refusal.
    pub fn bridge_month_at(
        edition: u32,
        turns: u32,
        covered: u32,
        asked_edition: u32,
        day: u32,
        list: *const u8,
        list_len: usize,
    ) -> u64;
    pub fn bridge_month_at_result(
        edition: u32,
        turns: u32,
        covered: u32,
        asked_edition: u32,
        day: u32,
        list: *const u8,
        list_len: usize,
    ) -> u32;

    /// An almanac file into a list, a block at a time. The upper half of the number is the refusal, and the
    /// lower half the number of days told.
    pub fn bridge_almanac_read_blocks(
        file: *const u8,
        file_len: usize,
        list: *mut u8,
        list_len: usize,
    ) -> u64;

    /// A body above 8 is refused with 16, on numbers that are no days too.
    pub safe fn bridge_longitude_result(body: u32, day: u32) -> u32;
    pub safe fn bridge_longitude_seconds(body: u32, day: u32) -> u32;
    pub safe fn bridge_longitude_remainder(body: u32, day: u32) -> u32;
    pub safe fn bridge_longitude_divisor(body: u32, day: u32) -> u32;

    /// The drift from the older books: body 0 Sun, 1 Moon, 2 its apogee; a body above 2 gives 0.
    pub safe fn bridge_drift_result(first: u32, last: u32) -> u32;
    pub safe fn bridge_drift_numerator(first: u32, last: u32, body: u32) -> u64;
    pub safe fn bridge_drift_divisor(first: u32, last: u32, body: u32) -> u64;
    pub safe fn bridge_drift_day(first: u32, last: u32, body: u32) -> u32;

    /// The true places of the five star planets, together.
    pub safe fn bridge_planets_result(day: u32) -> u32;
    /// Planets are 0 Mars to 4 Saturn; a planet above 4 gives 0.
    pub safe fn bridge_planets_place(day: u32, planet: u32) -> u32;

    /// All elements of a day in an edition, together.
    pub safe fn bridge_elements_result(edition: u32, day: u32) -> u32;
    pub safe fn bridge_elements_sun(edition: u32, day: u32) -> u32;
    pub safe fn bridge_elements_moon(edition: u32, day: u32) -> u32;
    pub safe fn bridge_elements_tithi(edition: u32, day: u32) -> u32;
    pub safe fn bridge_elements_nakshatra(edition: u32, day: u32) -> u32;
    pub safe fn bridge_elements_yoga(edition: u32, day: u32) -> u32;
    pub safe fn bridge_elements_karana(edition: u32, day: u32) -> u32;
    /// The true Moon alone.
    pub safe fn bridge_moon_result(edition: u32, day: u32) -> u32;
    pub safe fn bridge_moon_number(edition: u32, day: u32) -> u32;
    /// One alone: 0 tithi, 1 nakshatra, 2 yoga, 3 karana. Any other number is refused with 16, before all else.
    pub safe fn bridge_element_result(which: u32, edition: u32, day: u32) -> u32;
    pub safe fn bridge_element_number(which: u32, edition: u32, day: u32) -> u32;

    /// The row is `rows_len` records from `rows`, each with its day, lent for the call.
    pub fn bridge_fill_records(edition: u32, rows: *mut Record, rows_len: usize) -> u32;

    pub fn bridge_examine_result(query: *const u8, query_len: usize, day: u32) -> u32;
    pub fn bridge_examine_matches(query: *const u8, query_len: usize, day: u32) -> u32;
    pub fn bridge_examine_next(query: *const u8, query_len: usize, day: u32) -> u32;

    /// Why a day isn't in a query's list. All but the edition is 0 where it is.
    pub fn bridge_why_result(query: *const u8, query_len: usize, day: u32) -> u32;
    pub fn bridge_why_edition(query: *const u8, query_len: usize, day: u32) -> u32;
    /// 1 before the span, 2 after it, 3 weekday, 4 tithi, 5 nakshatra, 6 yoga, 7 and the body's number
    /// for its arcs, 16 karana, 17 and the true place's number for its arcs.
    pub fn bridge_why_condition(query: *const u8, query_len: usize, day: u32) -> u32;
    /// The values asked from number 0 on, one or, of a body, six: of each of its arcs "given" (0 or 1),
    /// start and width. Behind the last one come zeros.
    pub fn bridge_why_asked(query: *const u8, query_len: usize, day: u32, index: u32) -> u32;
    pub fn bridge_why_found(query: *const u8, query_len: usize, day: u32) -> u32;

    /// List and buffer are lent for the call. Each of the three calls fills the buffer.
    pub fn bridge_lines_result(
        edition: u32,
        list: *const u8,
        list_len: usize,
        from: u32,
        buffer: *mut u8,
        buffer_len: usize,
    ) -> u32;
    pub fn bridge_lines_bytes(
        edition: u32,
        list: *const u8,
        list_len: usize,
        from: u32,
        buffer: *mut u8,
        buffer_len: usize,
    ) -> usize;
    pub fn bridge_lines_next(
        edition: u32,
        list: *const u8,
        list_len: usize,
        from: u32,
        buffer: *mut u8,
        buffer_len: usize,
    ) -> usize;

    pub fn bridge_heading_result(
        edition: u32,
        length: u32,
        examined: u32,
        buffer: *mut u8,
        buffer_len: usize,
    ) -> u32;
    pub fn bridge_heading_bytes(
        edition: u32,
        length: u32,
        examined: u32,
        buffer: *mut u8,
        buffer_len: usize,
    ) -> usize;
}
