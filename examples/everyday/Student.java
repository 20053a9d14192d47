import java.util.ArrayList;
import java.util.List;

/** Marks of students: averages in tenths, the best, a histogram. */
public class Student {
    private final String name;
    private final List<Integer> marks = new ArrayList<>();

    public Student(String name, int... marks) {
        this.name = name;
        for (int mark : marks) {
            this.marks.add(mark);
        }
    }

    public int averageInTenths() {
        if (marks.isEmpty()) {
            return 0;
        }
        int sum = 0;
        for (int mark : marks) {
            sum += mark;
        }
        return 10 * sum / marks.size();
    }

    public char grade() {
        int average = averageInTenths();
        if (average >= 900) {
            return 'A';
        } else if (average >= 800) {
            return 'B';
        } else if (average >= 700) {
            return 'C';
        }
        return 'F';
    }

    static String tenths(int n) {
        return n / 10 + "." + n % 10;
    }

    public static void main(String[] args) {
        Student[] students = {
            new Student("Ann", 90, 85, 100), new Student("Bob", 70, 65), new Student("Cem", 88, 79, 83, 91),
                new Student("Dee")
        };
        Student best = null;
        int[] histogram = new int[11];
        for (Student s : students) {
            System.out.println(s.name + ": " + tenths(s.averageInTenths()) + " " + s.grade());
            if (best == null || s.averageInTenths() > best.averageInTenths()) {
                best = s;
            }
            for (Integer mark : s.marks) {
                histogram[mark / 10]++;
            }
        }
        System.out.println("best: " + best.name);
        for (int i = 0; i < histogram.length; i++) {
            if (histogram[i] > 0) {
                System.out.printf("%3d-%-3d %s%n", i * 10, i * 10 + 9, "*".repeat(histogram[i]));
            }
        }
    }
}
