'use strict';

// Books of names: English, those that are shipped, and one from a file.
const Books = (() => {
    // The bytes of the files in books/, in base64; the test of this page holds them to those.
    const SHIPPED = {
        dutch: 'TE5CAAEHamFudWFyaQhmZWJydWFyaQVtYWFydAVhcHJpbANtZWkEanVuaQRqdWxpCGF1Z3VzdHVzCXNlcHRlbWJlcgdva3RvYmVyCG5vdmVtYmVyCGRlY2VtYmVyA2phbgNmZWIDbXJ0A2FwcgNtZWkDanVuA2p1bANhdWcDc2VwA29rdANub3YDZGVjBnpvbmRhZwdtYWFuZGFnB2RpbnNkYWcId29lbnNkYWcJZG9uZGVyZGFnB3ZyaWpkYWcIemF0ZXJkYWcDem9uA21hYQNkaW4Dd29lA2RvbgN2cmkDemF0AnpvAm1hAmRpAndvAmRvAnZyAnphAVoBTQFEAVcBRAFWAVoBSgFGAU0BQQFNAUoBSgFBAVMBTwFOAUQ=',
        spanish: 'TE5CAAEFZW5lcm8HZmVicmVybwVtYXJ6bwVhYnJpbARtYXlvBWp1bmlvBWp1bGlvBmFnb3N0bwpzZXB0aWVtYnJlB29jdHVicmUJbm92aWVtYnJlCWRpY2llbWJyZQNlbmUDZmViA21hcgNhYnIDbWF5A2p1bgNqdWwDYWdvA3NlcANvY3QDbm92A2RpYwdkb21pbmdvBWx1bmVzBm1hcnRlcwltaWVyY29sZXMGanVldmVzB3ZpZXJuZXMGc2FiYWRvA2RvbQNsdW4DbWFyA21pZQNqdWUDdmllA3NhYgJkbwJsdQJtYQJtaQJqdQJ2aQJzYQFEAUwBTQFYAUoBVgFTAUUBRgFNAUEBTQFKAUoBQQFTAU8BTgFE',
    };

    const TITLES = { english: 'English', dutch: 'Dutch', spanish: 'Spanish' };

    const bytesOf = (base64) => Uint8Array.from(atob(base64), (character) => character.charCodeAt(0));
    const inLink = (bytes) => btoa(String.fromCharCode(...bytes)).replaceAll('+', '-').replaceAll('/', '_').replaceAll('=', '');
    // No bytes have a text in base64 with one letter over.
    const fromLink = (text) => bytesOf(text.length % 4 === 1 ? '' : text.replaceAll('-', '+').replaceAll('_', '/'));

    // The book of a name in the list; English is what is used without any.
    function shipped(sheet, name) {
        return Object.hasOwn(SHIPPED, name) ? sheet.readBook(bytesOf(SHIPPED[name])) : undefined;
    }

    // A book of a file, with its bytes as they stand in a link.
    function opened(sheet, bytes) {
        const book = sheet.readBook(bytes);
        return { book, names: inLink(sheet.writeBook(book)) };
    }

    return { titles: TITLES, shipped, opened, fromLink };
})();
