import java.time.LocalDate;
import java.time.LocalTime;
import java.time.OffsetDateTime;
import java.time.ZoneOffset;
import java.time.format.DateTimeFormatter;

/**
 * Stamps by java.time: `Stamps SEED COUNT` prints for each form, read and written, the least ns a call, and the sum over all stamps.
 */
final class Stamps {
    private static final DateTimeFormatter FORM = DateTimeFormatter.ISO_OFFSET_DATE_TIME;
    private static final long FIRST = LocalDate.of(1, 1, 1).toEpochDay();
    private static final String[] FORMS = {"Z", "+05:30", ".123456789+05:30"};
    private static final long WARM_NANOS = 2_000_000_000L;
    private static final int ROUNDS = 31;

    /** So many calls, one for each stamp. */
    private interface Pass {
        long sum();
    }

    public static void main(String[] words) {
        int count = Integer.parseInt(words[1]);
        for (int form = 0; form < FORMS.length; form++) {
            OffsetDateTime[] stamps = stamps(form, Long.parseLong(words[0]), count);
            String[] texts = new String[count];
            long written = 0;
            for (int place = 0; place < count; place++) {
                texts[place] = FORM.format(stamps[place]);
                written += hash(texts[place]);
            }
            print("read_" + FORMS[form], read(texts), count, () -> read(texts));
            print("write_" + FORMS[form], written, count, () -> write(stamps));
        }
    }

    private static long read(String[] texts) {
        long sum = 0;
        for (String text : texts) {
            OffsetDateTime stamp = OffsetDateTime.parse(text, FORM);
            long day = (long) stamp.getYear() ^ (long) stamp.getMonthValue() << 14 ^ (long) stamp.getDayOfMonth() << 18;
            long nanos = stamp.toLocalTime().toNanoOfDay();
            sum += day ^ nanos << 16 ^ Long.rotateLeft((long) stamp.getOffset().getTotalSeconds(), 32);
        }
        return sum;
    }

    private static long write(OffsetDateTime[] stamps) {
        long sum = 0;
        for (OffsetDateTime stamp : stamps) {
            sum += FORM.format(stamp).charAt(18);
        }
        return sum;
    }

    /** FNV-1a, as the benchmark takes it of the others' texts. */
    private static long hash(String text) {
        long hash = 0xcbf29ce484222325L;
        for (int place = 0; place < text.length(); place++) {
            hash = (hash ^ text.charAt(place)) * 0x100000001b3L;
        }
        return hash;
    }

    private static void print(String name, long sum, int calls, Pass pass) {
        long all = 0;
        for (long start = System.nanoTime(); System.nanoTime() - start < WARM_NANOS; ) {
            all |= pass.sum();
        }
        long least = Long.MAX_VALUE;
        for (int round = 0; round < ROUNDS; round++) {
            long start = System.nanoTime();
            all |= pass.sum();
            least = Math.min(least, System.nanoTime() - start);
        }
        // So that what the passes add is used.
        if (all == 0) {
            System.err.println(name);
        }
        System.out.println(name + " " + (double) least / calls + " " + Long.toUnsignedString(sum));
    }

    /** The stamps of the benchmark, by the same generator (splitmix64). */
    private static OffsetDateTime[] stamps(int form, long seed, int count) {
        OffsetDateTime[] stamps = new OffsetDateTime[count];
        long[] state = {seed};
        for (int place = 0; place < count; place++) {
            LocalDate day = LocalDate.ofEpochDay(FIRST + 366 + below(state, 3_651_000));
            LocalTime time = LocalTime.ofSecondOfDay(below(state, 86_400));
            long nanos = 10 * below(state, 100_000_000) + 1 + below(state, 9);
            int minutes = (int) (60 + below(state, 780));
            int offset = 60 * (below(state, 2) == 0 ? minutes : -minutes);
            stamps[place] =
                    OffsetDateTime.of(
                            day, form == 2 ? time.withNano((int) nanos) : time, ZoneOffset.ofTotalSeconds(form == 0 ? 0 : offset));
        }
        return stamps;
    }

    private static long below(long[] state, long limit) {
        state[0] += 0x9e3779b97f4a7c15L;
        long mixed = (state[0] ^ (state[0] >>> 30)) * 0xbf58476d1ce4e5b9L;
        mixed = (mixed ^ (mixed >>> 27)) * 0x94d049bb133111ebL;
        mixed ^= mixed >>> 31;
        return Long.remainderUnsigned(mixed, limit);
    }
}
