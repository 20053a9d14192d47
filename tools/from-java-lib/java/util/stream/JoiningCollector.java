package java.util.stream;

class JoiningCollector<T> extends Collector<T, String> {
    private String between;
    private String before;
    private String behind;
    private String text;

    JoiningCollector(String between, String before, String behind) {
        this.between = between;
        this.before = before;
        this.behind = behind;
    }

    void add(T element) {
        text = (text == null ? "" : text + between) + element;
    }

    String result() {
        return before + (text == null ? "" : text) + behind;
    }

    Collector<T, String> again() {
        return new JoiningCollector<T>(between, before, behind);
    }
}
