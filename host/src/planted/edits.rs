//! The planted errors: one edit each of the model's source. The build script makes the copies; it fails where a text to
//! replace does not stand in its file exactly once.

pub struct Planted {
    pub name: &'static str,
    /// Of a file of the model: the text, and what replaces it.
    pub edits: &'static [(&'static str, &'static str, &'static str)],
}

pub const PLANTED: [Planted; 74] = [
    // Promise 1: a refusal changes nothing, and the refusals are tried in their order.
    Planted {
        name: "refusal_12_writes_the_book",
        edits: &[(
            "model.rs",
            "(new_book, charge_records) = outcome(tariff, book, trip, statement.len())?;",
            "(new_book, charge_records) = outcome(tariff, book, trip, statement.len()).inspect_err(|refusal| if refusal.number == 12 { book[0] ^= 1 })?;",
        )],
    },
    Planted {
        name: "stops_before_10",
        edits: &[(
            "model.rs",
            "unless(book.trips() == 0 || book.last_check_out() <= check_in, 10)?;",
            "let window = window_for(book.clone(), &file, check_in, check_out);
             let stops = window.map_or(usize::MAX, |window| file.tariff(window.edition()).stops.len());
             unless(trip.stops.iter().all(|&stop| stop < stops), 7)?;
             unless(book.trips() == 0 || book.last_check_out() <= check_in, 10)?;",
        )],
    },
    // Promise 2: every step of a price rounds up for itself.
    Planted {
        name: "rounding_once_at_the_end",
        edits: &[(
            "fare.rs",
            "reduced_for_children(area, price(area, ride))",
            "match ride.class {
                1 => (step_2(area, ride, step_1(area, ride)) * (100 + area.surcharge) * (100 - area.reduction)).div_ceil(10_000),
                _ => reduced_for_children(area, price(area, ride)),
            }",
        )],
    },
    // Promise 3: the charge and not the price is added above.
    Planted {
        name: "price_added_above",
        edits: &[(
            "charge.rs",
            "book.add_to_all_classes(rider.number, area, charge);",
            "let own = &tariff.areas[ride.area];
             let price = if rider.is_child { child_price(own, ride) } else { price(own, ride) };
             let charge = if area == ride.area { charge } else { price };
             book.add_to_all_classes(rider.number, area, charge);",
        )],
    },
    // Out and back: where a trip is broken, and what its parts are.
    Planted {
        name: "broken_at_the_factor",
        edits: &[(
            "parts.rs",
            "squared_distance(first, far) > rule.factor",
            "squared_distance(first, far) >= rule.factor",
        )],
    },
    Planted {
        name: "last_of_equals",
        edits: &[("parts.rs", "distance(change) > distance(before)", "distance(change) >= distance(before)")],
    },
    Planted {
        name: "second_part_with_the_duration",
        edits: &[("parts.rs", "minutes: 0 },", "minutes: duration },")],
    },
    // The Aachen tariff: what is compared with a ticket and when, what a bicycle has paid, and where the town's 6 stands.
    Planted {
        name: "first_class_compared",
        edits: &[(
            "fare.rs",
            "1 => raised_for_first_class(area, amount),
        _ if",
            "1 => raised_for_first_class(area, compared(ride, ticket, amount)),
        _ if",
        )],
    },
    Planted {
        name: "child_reduced_after_the_ticket",
        edits: &[(
            "fare.rs",
            "let reduced = reduced_for_children(area, step_1(area, ride));
            compared_or_raised(area, ride, child_ticket, reduced)",
            "reduced_for_children(area, compared_or_raised(area, ride, child_ticket, step_1(area, ride)))",
        )],
    },
    Planted {
        name: "towns_ticket_compared",
        edits: &[("fare.rs", "_ if area.is_marked_town() => amount,", "")],
    },
    Planted {
        name: "payments_credited",
        edits: &[(
            "charge.rs",
            "Kind::Common => area.bicycle_flat - old_flat(tariff, book, bicycle),",
            "Kind::Common => area.bicycle_flat.saturating_sub(old_flat(tariff, book, bicycle) + book.payments(bicycle)),",
        )],
    },
    Planted {
        name: "town_after_11",
        edits: &[
            ("model.rs", "unless(trip.class != 1 || !rides_in_a_marked_town(tariff, &trip.stops), 6)?;", ""),
            (
                "model.rs",
                "unless(window.trips() + parts.len() as u64 <= TRIPS_IN_A_WINDOW, 11)?;",
                "unless(window.trips() + parts.len() as u64 <= TRIPS_IN_A_WINDOW, 11)?;
                 unless(trip.class != 1 || !rides_in_a_marked_town(tariff, &trip.stops), 6)?;",
            ),
        ],
    },
    // The night with two half past twos: the offset is taken off.
    Planted {
        name: "offset_added",
        edits: &[(
            "clock.rs",
            "self.local_minute().checked_sub(self.offset * MINUTES_IN_AN_HOUR)",
            "Some(self.local_minute() + self.offset * MINUTES_IN_AN_HOUR)",
        )],
    },
    // Which cap was it: the widest of equals, and none where the whole price is charged.
    Planted {
        name: "narrowest_of_equals",
        edits: &[("caps.rs", "narrowness(cap.level), cap.class", "2 - narrowness(cap.level), cap.class")],
    },
    Planted {
        name: "named_at_the_whole_price",
        edits: &[(
            "caps.rs",
            "named.filter(|_| reduction != 0)",
            "named.filter(|cap| reduction != 0 || cap.left() == price)",
        )],
    },
    // A quote before posting: 13 compares every byte, takes the place of 12, and changes nothing.
    Planted {
        name: "posting_compares_the_length",
        edits: &[("model.rs", "record == bytes_of(&charge_records)", "record.len() == bytes_of(&charge_records).len()")],
    },
    Planted { name: "posting_refuses_by_12", edits: &[("model.rs", "trip, usize::MAX)?;", "trip, record.len())?;")] },
    Planted {
        name: "refusal_13_writes_the_book",
        edits: &[(
            "model.rs",
            "unless(record == bytes_of(&charge_records), 13)?;",
            "book.copy_from_slice(&new_book.bytes()); unless(record == bytes_of(&charge_records), 13)?;",
        )],
    },
    // Reading our own statements: charge and reduction together, 31 charges, the order of the refusals, what a bicycle is told with.
    Planted {
        name: "charge_alone_compared",
        edits: &[("reading.rs", "charge.cents + charge.reduction > MOST_CENTS", "charge.cents > MOST_CENTS")],
    },
    Planted {
        name: "kind_4_of_32_charges",
        edits: &[("reading.rs", "const MOST_CHARGES: usize = 31;", "const MOST_CHARGES: usize = 32;")],
    },
    Planted {
        name: "fields_before_the_record",
        edits: &[(
            "reading.rs",
            "let (told, size) = read_record(statement, at)?;",
            "unless(fields.len() >= 24, 12)?; let (told, size) = read_record(statement, at)?;",
        )],
    },
    Planted {
        name: "no_cap_told_as_area_0",
        edits: &[("reading.rs", "(1, area), (1, class)", "(1, area % 255), (1, class)")],
    },
    // Mistaps: under 3 minutes, all stops and not the ends alone, stops and not points, before 10, of the trip and not of its parts.
    Planted { name: "mistap_of_3_minutes", edits: &[("trip.rs", "duration < NO_MISTAP", "duration <= NO_MISTAP")] },
    Planted {
        name: "mistap_by_first_and_last_stop",
        edits: &[("trip.rs", "self.stops.iter().all(", "self.stops.last().is_some_and(")],
    },
    Planted {
        name: "mistap_by_points",
        edits: &[(
            "model.rs",
            "unless(!trip.is_mistap(check_out - check_in), 17)?;",
            "let window = window_for(book.clone(), &file, check_in, check_out);
             let stops = window.map_or(Vec::new(), |window| file.tariff(window.edition()).stops.clone());
             let point = |stop: usize| stops.get(stop).map(|stop| (stop.x, stop.y));
             let is_there = |stop: usize| point(stop).is_some() && point(stop) == point(trip.stops[0]);
             let is_one_point = trip.stops.iter().all(|&stop| stop == trip.stops[0] || is_there(stop));
             unless(!is_one_point || check_out - check_in > 2, 17)?;",
        )],
    },
    Planted {
        name: "mistap_after_10",
        edits: &[
            ("model.rs", "unless(!trip.is_mistap(check_out - check_in), 17)?;", ""),
            (
                "model.rs",
                "unless(book.trips() == 0 || book.last_check_out() <= check_in, 10)?;",
                "unless(book.trips() == 0 || book.last_check_out() <= check_in, 10)?;
                 unless(!trip.is_mistap(check_out - check_in), 17)?;",
            ),
        ],
    },
    Planted {
        name: "mistap_of_a_part",
        edits: &[(
            "model.rs",
            "let parts = parts_of(tariff, &trip.stops, check_out - check_in);",
            "let parts = parts_of(tariff, &trip.stops, check_out - check_in);
             for part in &parts {
                 unless(!Trip { stops: part.stops.clone(), ..trip.clone() }.is_mistap(part.minutes), 17)?;
             }",
        )],
    },
    // Editions: which one settles a trip, what a file may be, what a book may hold, and where 22 stands.
    Planted {
        name: "edition_of_the_check_in",
        edits: &[(
            "model.rs",
            "let tariff = file.tariff(window.edition());",
            "let tariff = file.tariff(file.in_force(check_in).unwrap_or(window.edition()));",
        )],
    },
    Planted {
        name: "edition_of_the_check_out",
        edits: &[("charge.rs", "file.in_force(check_in)", "file.in_force(check_in).and(file.in_force(check_out))")],
    },
    Planted {
        name: "edition_from_its_second_minute",
        edits: &[("editions.rs", "edition.since <= minute", "edition.since < minute || minute == 0")],
    },
    Planted {
        name: "edition_of_the_last_window",
        edits: &[(
            "charge.rs",
            "Book::opened_at(check_in, edition)",
            "Book::opened_at(check_in, if is_open { book.edition() } else { edition })",
        )],
    },
    Planted { name: "equal_dates", edits: &[("editions.rs", "earlier.since < since", "earlier.since <= since")] },
    Planted {
        name: "third_edition",
        edits: &[("editions.rs", "const MOST_EDITIONS: usize = 2;", "const MOST_EDITIONS: usize = 3;")],
    },
    Planted {
        name: "opening_before_the_factor_records",
        edits: &[(
            "editions.rs",
            "let is_due = self.editions.is_empty() || self.is_whole();",
            "let is_due = self.editions.last().is_none_or(|last| !last.tariff.areas.is_empty());",
        )],
    },
    Planted {
        name: "bicycles_by_the_last_edition",
        edits: &[("book.rs", "areas[self.edition() - 1]", "areas[areas.len() - 1]")],
    },
    Planted {
        name: "book_without_an_edition",
        edits: &[
            ("book.rs", "(1..=areas.len()).contains(&self.edition())", "self.edition() <= areas.len()"),
            ("book.rs", "areas[self.edition() - 1]", "areas[self.edition().max(1) - 1]"),
            ("book.rs", "self.words[EDITION_WORD] as usize", "self.words[EDITION_WORD].max(u64::from(self.trips() > 0)) as usize"),
        ],
    },
    Planted {
        name: "no_edition_before_10",
        edits: &[(
            "model.rs",
            "unless(book.trips() == 0 || book.last_check_out() <= check_in, 10)?;",
            "unless(window_for(book.clone(), &file, check_in, check_out).is_some(), 22)?;
             unless(book.trips() == 0 || book.last_check_out() <= check_in, 10)?;",
        )],
    },
    Planted {
        name: "no_edition_after_7",
        edits: &[(
            "model.rs",
            "let window = window_for(book, &file, check_in, check_out).ok_or(refused(22))?;",
            "let stops = file.tariff(1).stops.len();
             let number = if trip.stops.iter().all(|&stop| stop < stops) { 22 } else { 7 };
             let window = window_for(book, &file, check_in, check_out).ok_or(refused(number))?;",
        )],
    },
    Planted {
        name: "closing_leaves_the_edition",
        edits: &[("page.rs", "page[bytes_of(place)].fill(0);", "page[bytes_of(place)][..PLACE_BYTES - 4].fill(0);")],
    },
    // A page of accounts: the lowest place, the whole of it and no other, every number, and the order of the refusals.
    Planted {
        name: "highest_free_place",
        edits: &[(
            "page.rs",
            "self.numbers.iter().position(|&number| number == FREE)",
            "self.numbers.iter().rposition(|&number| number == FREE)",
        )],
    },
    Planted {
        name: "closing_clears_the_number_alone",
        edits: &[("page.rs", "page[bytes_of(place)].fill(0);", "page[bytes_of(place)][..NUMBER_BYTES].fill(0);")],
    },
    Planted {
        name: "free_place_taken_for_fresh",
        edits: &[(
            "page.rs",
            "page[bytes_of(place)].copy_from_slice(&bytes);",
            "page[bytes_of(place)][..NUMBER_BYTES].copy_from_slice(&bytes[..NUMBER_BYTES]);",
        )],
    },
    Planted {
        name: "neighbours_byte_written",
        edits: &[(
            "page.rs",
            "settle(tariff, &mut page[book_of(place)], trip, statement)",
            "let written = settle(tariff, &mut page[book_of(place)], trip, statement)?;
             page[PLACE_BYTES * ((place + 1) % PLACES) + NUMBER_BYTES] ^= 1;
             Ok(written)",
        )],
    },
    Planted {
        name: "doubled_number_overlooked",
        edits: &[(
            "page.rs",
            "members.iter().all(|&member| is_stored_once(member))",
            "members.iter().take(4).all(|&member| is_stored_once(member))",
        )],
    },
    Planted {
        name: "free_by_its_first_byte",
        edits: &[(
            "page.rs",
            "self.numbers.iter().position(|&number| number == FREE)",
            "self.numbers.iter().position(|&number| number % 256 == FREE)",
        )],
    },
    Planted {
        name: "full_page_before_the_member",
        edits: &[(
            "page.rs",
            "unless(half.place_of(member).is_none(), 19)?;",
            "unless(half.free_place().is_some(), 20)?; unless(half.place_of(member).is_none(), 19)?;",
        )],
    },
    Planted {
        name: "page_before_the_tariff",
        edits: &[("page.rs", "read_file(tariff)?;", "Half::of(page, association, member)?; read_file(tariff)?;")],
    },
    Planted {
        name: "others_books_looked_at",
        edits: &[(
            "page.rs",
            "// from 4 on\n",
            "let areas = read_file(tariff)?.areas();
             let is_sound = |place| Book::read(&page[book_of(place)]).is_some_and(|book| book.is_sound(&areas));
             let own = half.first..half.first + PLACES_OF_EACH;
             unless(own.into_iter().all(|place| half.numbers[place - half.first] == FREE || is_sound(place)), 4)?;\n",
        )],
    },
    // Two associations on it: neither's half matters to the other, and 21 goes before 18.
    Planted {
        name: "doubled_in_the_other_half",
        edits: &[(
            "page.rs",
            "let own = page.chunks(PLACE_BYTES).skip(first)",
            "let all: Vec<u64> = page.chunks(PLACE_BYTES).map(|place| number(&place[..NUMBER_BYTES])).collect();
             let is_once = |number: u64| number == FREE || all.iter().filter(|&&other| other == number).count() < 3;
             unless(all.iter().all(|&number| is_once(number)), 18)?;
             let own = page.chunks(PLACE_BYTES).skip(first)",
        )],
    },
    Planted {
        name: "room_in_the_other_half",
        edits: &[(
            "page.rs",
            "half.free_place().ok_or(refused(20))?;",
            "match half.free_place() {
                 Some(place) => place,
                 None => Half::of(page, 1 - association, member)?.free_place().ok_or(refused(20))?,
             };",
        )],
    },
    Planted {
        name: "association_after_the_page",
        edits: &[
            ("page.rs", "unless(association < ASSOCIATIONS, 21)?;", ""),
            (
                "page.rs",
                "unless(is_a_members(member.into()), 18)?;",
                "unless(is_a_members(member.into()), 18)?; unless(association < ASSOCIATIONS, 21)?;",
            ),
        ],
    },
    Planted {
        name: "other_half_written",
        edits: &[(
            "page.rs",
            "page[bytes_of(place)].fill(0);",
            "page[bytes_of(place)].fill(0);
             let other = bytes_of((place + PLACES_OF_EACH) % PLACES);
             if number(&page[other.clone()][..NUMBER_BYTES]) == u64::from(member) { page[other].fill(0); }",
        )],
    },
    // A monthly ceiling: whose month, what is collected, and what a refusal leaves.
    Planted {
        name: "month_of_the_check_out",
        edits: &[("month.rs", "month_of(trip.check_in.minute_number()", "month_of(trip.check_out.minute_number()")],
    },
    Planted {
        name: "month_by_the_local_clock",
        edits: &[(
            "month.rs",
            "let month = month_of(trip.check_in.minute_number().expect(\"accepted, so a time\"));",
            "let month = 12 * (trip.check_in.year - FIRST_YEAR) + trip.check_in.month - 1;",
        )],
    },
    Planted {
        name: "first_record_collected_alone",
        edits: &[("month.rs", "charge_records.iter().map(ChargeRecord::total)", "charge_records[..1].iter().map(ChargeRecord::total)")],
    },
    Planted {
        name: "later_month_goes_on",
        edits: &[("month.rs", "if found.month == month {", "if found.month >= month {")],
    },
    Planted {
        name: "nothing_due_keeps_the_month",
        edits: &[(
            "month.rs",
            "kept.copy_from_slice(",
            "let is_kept = collected == 0 && found.month != month;
             if !is_kept { kept.copy_from_slice(",
        ), (
            "month.rs",
            "Kept { month, amount: before + collected }.bytes());",
            "Kept { month, amount: before + collected }.bytes()); }",
        )],
    },
    Planted {
        name: "amount_lowered_with_the_ceiling",
        edits: &[("month.rs", "amount: before + collected", "amount: (before + collected).min(ceiling)")],
    },
    Planted {
        name: "ceiling_after_the_tariff",
        edits: &[("month.rs", "unless(ceiling <= MOST, 24)?;", "super::read_file(tariff)?; unless(ceiling <= MOST, 24)?;")],
    },
    Planted {
        name: "room_for_what_is_due_first",
        edits: &[(
            "month.rs",
            "let (new_book, charge_records) = outcome(tariff, book, trip, room)?;",
            "unless(DUE_BYTES <= due.len(), 12)?;
             let (new_book, charge_records) = outcome(tariff, book, trip, room)?;",
        )],
    },
    // A corrected roll: who pays, from which book, and which refusal goes first.
    Planted {
        name: "bicycle_under_a_childs_number",
        edits: &[(
            "correction.rs",
            "[1, 1 + MOST_CARRIED, 1 + 2 * MOST_CARRIED]",
            "[1, 1 + MOST_CARRIED, 1 + MOST_CARRIED + children]",
        )],
    },
    Planted {
        name: "child_behind_the_last_adult",
        edits: &[(
            "correction.rs",
            "[1, 1 + MOST_CARRIED, 1 + 2 * MOST_CARRIED]",
            "[1, 1 + adults, 1 + 2 * MOST_CARRIED]",
        )],
    },
    Planted {
        name: "corrected_roll_on_the_old_book",
        edits: &[
            ("correction.rs", "let mut book = vec![0; BOOK_BYTES];", ""),
            ("correction.rs", "fn of(tariff: &[u8], trips: &[&[u8]])", "fn of(tariff: &[u8], book: &mut [u8], trips: &[&[u8]])"),
            ("correction.rs", "settle(tariff, &mut book, trip, &mut statement)", "settle(tariff, book, trip, &mut statement)"),
            (
                "correction.rs",
                "let (before, after) = (Outcome::of(tariff, &old), Outcome::of(tariff, &new));",
                "let mut book = vec![0; BOOK_BYTES];
                 let (before, after) = (Outcome::of(tariff, &mut book, &old), Outcome::of(tariff, &mut book, &new));",
            ),
        ],
    },
    Planted {
        name: "old_sum_less_the_new_one",
        edits: &[("correction.rs", "new as i64 - *old as i64", "*old as i64 - new as i64")],
    },
    Planted {
        name: "differences_of_32_bits",
        edits: &[("correction.rs", "&(new as i64 - *old as i64).to_le_bytes()", "&u64::from((new as u32).wrapping_sub(*old as u32)).to_le_bytes()")],
    },
    Planted {
        name: "record_counted_from_0",
        edits: &[("correction.rs", "(n as usize).checked_sub(1)", "Some(n as usize)")],
    },
    Planted {
        name: "number_of_two_bytes",
        edits: &[("correction.rs", "(n as usize).checked_sub(1)", "(n as usize % 65_536).checked_sub(1)")],
    },
    Planted {
        name: "torn_record_exchanged",
        edits: &[("correction.rs", "unless(!old[exchanged].is_empty(), 23)?;", "")],
    },
    Planted {
        name: "cancelled_roll_ends_there",
        edits: &[(
            "correction.rs",
            "new[exchanged] = replacement;",
            "new[exchanged] = replacement;
             if replacement.is_empty() { new.truncate(exchanged); }",
        )],
    },
    Planted {
        name: "replacement_cut_to_its_first_record",
        edits: &[(
            "correction.rs",
            "new[exchanged] = replacement;",
            "new[exchanged] = records_of(replacement).first().copied().flatten().unwrap_or(replacement);",
        )],
    },
    Planted {
        name: "correction_after_the_tariff",
        edits: &[("correction.rs", "let old = records_of(roll);", "read_file(tariff)?; let old = records_of(roll);")],
    },
    Planted {
        name: "differences_before_the_tariff",
        edits: &[(
            "correction.rs",
            "read_file(tariff)?;",
            "unless(DIFFERENCES_BYTES <= differences.len(), 12)?; read_file(tariff)?;",
        )],
    },
    Planted {
        name: "refused_correction_writes_statements",
        edits: &[(
            "correction.rs",
            "let written = after.statements.len();",
            "let written = after.statements.len();
             if written <= statements.len() { statements[..written].copy_from_slice(&after.statements); }",
        )],
    },
    Planted {
        name: "differences_behind_the_last",
        edits: &[("correction.rs", "Ok(written)", "differences[DIFFERENCES_BYTES..].fill(0); Ok(written)")],
    },
];
