import java.util.*;
import java.util.function.Function;
import java.util.function.Predicate;

/** People of a firm: grouping, filtering, functional interfaces of our own and of the library. */
public class Employees {
    static abstract class Employee {
        private static int count;
        protected final String name;
        protected final String department;

        protected Employee(String name, String department) {
            this.name = name;
            this.department = department;
            count++;
        }

        abstract int pay();

        static int getCount() {
            return count;
        }

        @Override
        public String toString() {
            return String.format("%-8s%6d", name, pay());
        }
    }

    static class Manager extends Employee {
        private final List<Employee> reports = new ArrayList<>();

        Manager(String name, String department) {
            super(name, department);
        }

        void lead(Employee... all) {
            for (Employee e : all) {
                reports.add(e);
            }
        }

        @Override
        int pay() {
            return 5000 + 100 * reports.size();
        }
    }

    static class Engineer extends Employee {
        private int level = 1;

        Engineer(String name, String department) {
            super(name, department);
        }

        Engineer raise() {
            level++;
            return this;
        }

        @Override
        int pay() {
            return 3000 + 500 * level;
        }
    }

    @FunctionalInterface
    interface Rule {
        int apply(Employee e);

        default Rule twice() {
            return e -> 2 * apply(e);
        }
    }

    static <K> Map<K, List<Employee>> group(List<Employee> all, Function<Employee, K> key) {
        Map<K, List<Employee>> groups = new TreeMap<>();
        for (Employee e : all) {
            groups.computeIfAbsent(key.apply(e), k -> new ArrayList<>()).add(e);
        }
        return groups;
    }

    static List<Employee> filter(List<Employee> all, Predicate<Employee> test) {
        List<Employee> kept = new ArrayList<>();
        for (Employee e : all) {
            if (test.test(e)) kept.add(e);
        }
        return kept;
    }

    static int sum(List<Employee> all, Rule rule) {
        int total = 0;
        for (Employee e : all) total += rule.apply(e);
        return total;
    }

    public static void main(String[] args) {
        Manager ann = new Manager("Ann", "lab");
        Employee bob = new Engineer("Bob", "lab").raise(), cem = new Engineer("Cem", "shop"),
            dee = new Engineer("Dee", "lab").raise().raise();
        ann.lead(bob, cem, dee);
        ann.lead();
        List<Employee> all = new ArrayList<>(Arrays.asList(ann, bob, cem, dee));
        for (Map.Entry<String, List<Employee>> entry : group(all, e -> e.department).entrySet()) {
            System.out.println(entry.getKey() + " " + entry.getValue());
        }
        System.out.println(group(all, e -> e.name.length() + e.pay() / 1000).keySet());
        int limit = 4000 + args.length;
        Predicate<Employee> rich = e -> e.pay() > limit;
        System.out.println(filter(all, rich).size() + " " + filter(all, rich.negate()));
        Rule pay = Employee::pay;
        Rule bonus = e -> e instanceof Manager ? 50 : 10;
        System.out.println(sum(all, pay) + " " + sum(all, bonus.twice()) + " " + Employee.getCount());
        all.sort(Comparator.comparing((Employee e) -> e.department).thenComparing(e -> e.name,
            Comparator.reverseOrder()));
        for (Employee e : all) System.out.println(e);
    }
}
