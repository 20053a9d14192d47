import java.io.PrintStream;
import java.util.ArrayList;
import java.util.LinkedHashMap;
import java.util.LinkedHashSet;
import java.util.List;
import java.util.Map;
import java.util.Set;

/** What stands in the way, all of it, each with its place, its form and what to write. */
final class Obstacles {
    private record One(Place place, String form, String advice) {
    }

    private final Set<One> all = new LinkedHashSet<>();
    private Set<String> silent = Set.of(); // forms of which all is told

    void add(Place place, String form, String advice) {
        if (!silent.contains(form)) {
            all.add(new One(place, form, advice));
        }
    }

    void silence(Set<String> forms) {
        silent = forms;
    }

    List<String> advices() {
        return all.stream().map(One::advice).toList();
    }

    boolean none() {
        return all.isEmpty();
    }

    void print(PrintStream out) {
        Map<String, List<One>> forms = new LinkedHashMap<>();
        List<One> sorted = new ArrayList<>(all);
        sorted.sort((a, b) -> compare(a.place, b.place));
        for (One one : sorted) {
            forms.computeIfAbsent(one.form, form -> new ArrayList<>()).add(one);
            out.println(one.place + ": " + one.form + ": " + one.advice);
        }
        StringBuilder told = new StringBuilder();
        forms.forEach((form, ones) -> told.append(told.length() == 0 ? ""
            : ", ").append(ones.size()).append(" x ").append(form));
        out.println("in the way: " + told);
    }

    private static int compare(Place a, Place b) {
        int files = a.file().compareTo(b.file());
        int lines = Integer.compare(a.line(), b.line());
        return files != 0 ? files : lines != 0 ? lines : Integer.compare(a.column(), b.column());
    }
}
