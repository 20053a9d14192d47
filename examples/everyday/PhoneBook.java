import java.util.*;
import java.util.stream.Collectors;

public class PhoneBook {
    private static final class Contact implements Comparable<Contact> {
        private final String name;
        private final Set<String> numbers = new LinkedHashSet<>();
        private String email;

        private Contact(Builder b) {
            this.name = b.name;
            this.email = b.email;
            this.numbers.addAll(b.numbers);
        }

        public String getName() { return name; }

        public Optional<String> getEmail() { return Optional.ofNullable(email); }

        @Override public int compareTo(Contact other) { return name.compareToIgnoreCase(other.name); }

        @Override public boolean equals(Object o) { return o instanceof Contact && ((Contact) o).name.equalsIgnoreCase(name); }

        @Override public int hashCode() { return name.toLowerCase().hashCode(); }

        @Override public String toString() { return String.format("%-8s %-20s %s", name, String.join("/", numbers), getEmail().orElse("-")); }

        static Builder builder(String name) { return new Builder(name); }

        static class Builder {
            private final String name;
            private final List<String> numbers = new ArrayList<>();
            private String email;

            Builder(String name) { this.name = name; }

            Builder number(String n) { numbers.add(n); return this; }

            Builder email(String e) { email = e; return this; }

            Contact build() { return new Contact(this); }
        }
    }

    private final Map<Character, SortedSet<Contact>> index = new TreeMap<>();
    private final Deque<Runnable> undo = new ArrayDeque<>();

    void add(Contact c) {
        char key = Character.toUpperCase(c.getName().charAt(0));
        SortedSet<Contact> bucket = index.computeIfAbsent(key, k -> new TreeSet<>());
        if (bucket.add(c)) {
            undo.push(() -> {
                bucket.remove(c);
                if (bucket.isEmpty()) index.remove(key);
            });
        } else {
            System.out.println("duplicate: " + c.getName());
        }
    }

    boolean undo() {
        if (undo.isEmpty()) return false;
        undo.pop().run();
        return true;
    }

    List<Contact> search(String part) {
        return index.values().stream().flatMap(Collection::stream)
            .filter(c -> c.getName().toLowerCase().contains(part.toLowerCase()))
            .sorted(Comparator.comparing(Contact::getName).reversed())
            .collect(Collectors.toList());
    }

    int size() {
        int n = 0;
        for (Collection<Contact> c : index.values()) n += c.size();
        return n;
    }

    void print() {
        index.forEach((letter, contacts) -> {
            System.out.println(letter + " (" + contacts.size() + ")");
            contacts.forEach(c -> System.out.println("  " + c));
        });
    }

    public static void main(String[] args) {
        PhoneBook book = new PhoneBook();
        book.add(Contact.builder("Bob").number("555-1").number("555-2").build());
        book.add(Contact.builder("alice").number("555-9").email("alice@example.org").build());
        book.add(Contact.builder("Abe").build());
        book.add(Contact.builder("ALICE").number("1").build());
        book.print();
        System.out.println(book.search("b").stream().map(Contact::getName).collect(Collectors.toList()));
        System.out.println(book.undo() + " " + book.size() + " " + book.undo() + " " + book.undo() + " " + book.undo() + " " + book.size());
        book.print();
        Iterator<String> it = List.of("x", "y").iterator();
        it.next();
        System.out.println(it.hasNext() + " " + it.next());
        List<Integer> nums = new ArrayList<>(Arrays.asList(5, 3, 9, 1));
        nums.remove(Integer.valueOf(9));
        nums.remove(0);
        nums.addAll(0, Collections.nCopies(2, 7));
        Collections.swap(nums, 0, 3);
        System.out.println(nums + " " + nums.indexOf(7) + " " + nums.contains(5) + " " + Collections.unmodifiableList(nums).size());
        nums.removeIf(n -> n > 5);
        nums.replaceAll(n -> n + 100);
        System.out.println(nums + " " + nums.subList(0, 1) + " " + nums.equals(List.of(101, 103)) + " " + nums.hashCode());
        Integer[] boxed = nums.toArray(new Integer[0]);
        System.out.println(boxed.length + Arrays.toString(boxed));
    }
}
