import java.time.LocalDate;
import java.time.temporal.IsoFields;

/** Days and their numbers by java.time: `Days SEED COUNT` prints for each way the least ns a call, and the sum over all days. */
final class Days {
    private static final long FIRST = LocalDate.of(1, 1, 1).toEpochDay();
    private static final int LAST_OF_9999 = 3_652_058;
    private static final long WARM_NANOS = 2_000_000_000L;
    private static final int ROUNDS = 31;

    /** So many calls, one for each day. */
    private interface Pass {
        long sum();
    }

    public static void main(String[] words) {
        int[] numbers = numbers(Long.parseLong(words[0]), Integer.parseInt(words[1]));
        int[][] dates = new int[numbers.length][];
        for (int place = 0; place < numbers.length; place++) {
            LocalDate day = LocalDate.ofEpochDay(numbers[place] + FIRST);
            dates[place] = new int[] {day.getYear(), day.getMonthValue(), day.getDayOfMonth()};
        }
        print("day_of", numbers.length, () -> days(numbers));
        print("day_number", numbers.length, () -> numbers(dates));
    }

    private static long days(int[] numbers) {
        long sum = 0;
        for (int number : numbers) {
            LocalDate day = LocalDate.ofEpochDay(number + FIRST);
            sum += (long) day.getYear()
                    ^ (long) day.getMonthValue() << 32
                    ^ (long) day.getDayOfMonth() << 36
                    ^ (long) day.getDayOfYear() << 41
                    ^ (long) day.get(IsoFields.WEEK_OF_WEEK_BASED_YEAR) << 50
                    ^ (long) (day.getDayOfWeek().getValue() % 7) << 56;
        }
        return sum;
    }

    private static long numbers(int[][] dates) {
        long sum = 0;
        for (int[] date : dates) {
            sum += LocalDate.of(date[0], date[1], date[2]).toEpochDay() - FIRST;
        }
        return sum;
    }

    private static void print(String name, int calls, Pass pass) {
        long sum = pass.sum();
        for (long start = System.nanoTime(); System.nanoTime() - start < WARM_NANOS; ) {
            sum |= pass.sum();
        }
        long least = Long.MAX_VALUE;
        for (int round = 0; round < ROUNDS; round++) {
            long start = System.nanoTime();
            sum |= pass.sum();
            least = Math.min(least, System.nanoTime() - start);
        }
        System.out.println(name + " " + (double) least / calls + " " + Long.toUnsignedString(sum));
    }

    /** The days of the benchmark, by the same generator (splitmix64). */
    private static int[] numbers(long seed, int count) {
        int[] numbers = new int[count];
        long state = seed;
        for (int place = 0; place < count; place++) {
            state += 0x9e3779b97f4a7c15L;
            long mixed = (state ^ (state >>> 30)) * 0xbf58476d1ce4e5b9L;
            mixed = (mixed ^ (mixed >>> 27)) * 0x94d049bb133111ebL;
            mixed ^= mixed >>> 31;
            numbers[place] = (int) Long.remainderUnsigned(mixed, LAST_OF_9999 + 1);
        }
        return numbers;
    }
}
