'use strict';

// The day that is written: a date, a time of day and an offset, from their fields.
const Day = (() => {
    const { byId } = Elements;

    const SECOND = 1e9;

    // What was last picked without a fault; meanwhile a field may be half typed.
    let fields;

    function dateOf(sheet, text) {
        const found = /^(\d{4,6})-(\d\d)-(\d\d)$/.exec(text);
        if (!found) throw new Error('There is no such day');
        const [year, month, day] = found.slice(1).map(Number);
        return sheet.dayOf(sheet.dayNumber(year, month, day));
    }

    function timeOf(text) {
        const found = /^(\d\d):(\d\d)(?::(\d\d))?$/.exec(text);
        if (!found) throw new Error('There is no such time');
        const [hour, minute, second] = found.slice(1).map((digits) => Number(digits ?? 0));
        return ((hour * 60 + minute) * 60 + second) * SECOND;
    }

    function nanosOf(text) {
        if (!/^\d{0,9}$/.test(text)) throw new Error('Nanoseconds are up to nine digits');
        return Number(text);
    }

    function offsetOf(sheet, text) {
        try {
            return sheet.parseOffset(text);
        } catch (refusal) {
            throw new Error(`Refused ${refusal.number}: ${refusal.message}`);
        }
    }

    function picked(sheet) {
        return {
            ...dateOf(sheet, byId('date').value),
            nanoseconds: timeOf(byId('time').value) + nanosOf(byId('nanos').value),
            offset: offsetOf(sheet, byId('offset').value),
        };
    }

    // The record of the fields, or the one before where one of them is at fault; a line says which day it is, or why not.
    function read(sheet) {
        const line = byId('day-words');
        try {
            fields = picked(sheet);
            line.textContent = sheet.write("eeee, 'week' w, 'day' D 'of the year'", fields);
        } catch (fault) {
            line.textContent = `${fault.message}. The day before it stays.`;
        }
        line.classList.toggle('fault', line.textContent.endsWith('stays.'));
        return fields;
    }

    return { read };
})();
