import java.util.ArrayList;
import java.util.Arrays;
import java.util.List;

public class Exceptions {
    static class Resource implements AutoCloseable {
        private final String name;
        private static int open;

        Resource(String name) {
            this.name = name;
            open++;
            System.out.println("open " + name);
        }

        void use(int n) {
            if (n < 0) throw new IllegalArgumentException("negative: " + n);
            System.out.println(name + " used " + n);
        }

        @Override
        public void close() throws Exception {
            open--;
            System.out.println("close " + name);
            if (name.equals("bad")) throw new Exception("close failed");
        }
    }

    static class ValidationException extends Exception {
        private final List<String> errors;

        ValidationException(List<String> errors) {
            super(errors.size() + " errors");
            this.errors = errors;
        }

        List<String> getErrors() { return errors; }
    }

    static int divide(int a, int b) {
        try {
            return a / b;
        } catch (ArithmeticException e) {
            System.out.println("Caught: " + e.getMessage());
            return 0;
        } finally {
            System.out.println("divide done");
        }
    }

    static void arrays(int index) {
        int[] data = {10, 20, 30};
        try {
            data[index] += 5;
            System.out.println("data[" + index + "] = " + data[index]);
        } catch (ArrayIndexOutOfBoundsException e) {
            System.out.println("Bad index: " + e.getMessage());
        }
    }

    static int parse(String s) {
        try {
            return Integer.parseInt(s);
        } catch (NumberFormatException e) {
            System.out.println(e.getMessage());
            return -1;
        }
    }

    static void validate(String name, int age) throws ValidationException {
        List<String> errors = new ArrayList<>();
        if (name == null || name.isEmpty()) errors.add("name missing");
        if (age < 0 || age > 150) errors.add("age " + age);
        if (!errors.isEmpty()) throw new ValidationException(errors);
    }

    static int nested(int n) {
        try {
            try {
                if (n == 1) throw new IllegalStateException("inner");
                if (n == 2) throw new RuntimeException("outer");
                return n;
            } catch (IllegalStateException e) {
                throw new RuntimeException("wrapped", e);
            } finally {
                System.out.print("[f1]");
            }
        } catch (RuntimeException e) {
            System.out.print("[" + e.getMessage() + (e.getCause() != null ? " <- " + e.getCause().getMessage() : "") + "]");
            return -n;
        } finally {
            System.out.println("[f2]");
        }
    }

    public static void main(String[] args) {
        System.out.println(divide(7, 2) + " " + divide(1, 0));
        arrays(1);
        arrays(3);
        arrays(-1);
        for (String s : new String[] {"12", "x1", "", "99999999999"}) System.out.println(parse(s));
        try (Resource r = new Resource("a"); Resource q = new Resource("b")) {
            r.use(1);
            q.use(-1);
        } catch (IllegalArgumentException e) {
            System.out.println("main: " + e.getMessage());
        } catch (Exception e) {
            System.out.println("other: " + e.getMessage());
        }
        try (Resource r = new Resource("bad")) {
            r.use(2);
        } catch (Exception e) {
            System.out.println("bad: " + e.getMessage() + " " + e.getSuppressed().length);
        }
        try (Resource r = new Resource("bad")) {
            r.use(-2);
        } catch (Exception e) {
            System.out.println("bad: " + e.getMessage() + " " + e.getSuppressed().length + " " + e.getSuppressed()[0].getMessage());
        }
        System.out.println(Resource.open);
        try {
            validate("", 200);
        } catch (ValidationException e) {
            System.out.println(e.getMessage() + " " + e.getErrors());
        }
        for (int i = 0; i < 3; i++) System.out.println(nested(i));
        try {
            Object o = Arrays.asList(1, 2).get(5);
            System.out.println(o);
        } catch (IndexOutOfBoundsException e) {
            System.out.println("list index");
        }
        try {
            System.out.println("abc".charAt(5));
        } catch (StringIndexOutOfBoundsException e) {
            System.out.println("string index: " + e.getMessage());
        }
        try {
            int[] a = new int[divide(5, 0) - 1];
            System.out.println(a.length);
        } catch (NegativeArraySizeException e) {
            System.out.println("size " + e.getMessage());
        }
        try {
            List<Integer> list = List.of(1, 2, 3);
            list.forEach(x -> {
                if (x == 2) throw new IllegalStateException("stop at " + x);
                System.out.println("item " + x);
            });
        } catch (IllegalStateException e) {
            System.out.println(e.getMessage());
        }
        throw new UnsupportedOperationException("the end");
    }
}
