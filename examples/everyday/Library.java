import java.util.*;

/** Books that are lent, with exceptions of its own that are caught. */
public class Library {
    static class LendingException extends Exception {
        private final String book;

        LendingException(String book, String why) {
            super(book + ": " + why);
            this.book = book;
        }

        String getBook() {
            return book;
        }
    }

    static class NotFoundException extends LendingException {
        NotFoundException(String book) {
            super(book, "not found");
        }
    }

    static class Book {
        final String title, author;
        private String lentTo;

        Book(String title, String author) {
            this.title = title;
            this.author = author;
        }

        void lend(String to) throws LendingException {
            if (lentTo != null) {
                throw new LendingException(title, "lent to " + lentTo);
            }
            lentTo = to;
        }

        void giveBack() {
            if (lentTo == null) {
                throw new IllegalStateException(title + " is here");
            }
            lentTo = null;
        }

        @Override
        public boolean equals(Object o) {
            if (this == o) return true;
            if (!(o instanceof Book)) return false;
            Book other = (Book) o;
            return title.equals(other.title) && author.equals(other.author);
        }

        @Override
        public int hashCode() {
            return Objects.hash(title, author);
        }
    }

    private final Map<String, Book> books = new LinkedHashMap<>();
    private int refused;

    void add(String title, String author) {
        books.put(title, new Book(title, author));
    }

    Book find(String title) throws NotFoundException {
        Book book = books.get(title);
        if (book == null) {
            throw new NotFoundException(title);
        }
        return book;
    }

    void lend(String title, String to) {
        try {
            find(title).lend(to);
            System.out.println(to + " has " + title);
        } catch (NotFoundException e) {
            System.out.println("no such book: " + e.getBook());
        } catch (LendingException e) {
            refused++;
            System.out.println("refused: " + e.getMessage());
        } finally {
            System.out.println("-");
        }
    }

    int parse(String text) {
        try {
            return Integer.parseInt(text);
        } catch (NumberFormatException e) {
            System.out.println(e.getMessage());
            return -1;
        }
    }

    public static void main(String[] args) {
        Library library = new Library();
        library.add("Emma", "Austen");
        library.add("Faust", "Goethe");
        library.lend("Emma", "Ann");
        library.lend("Emma", "Bob");
        library.lend("Ulysses", "Bob");
        for (String arg : args) {
            System.out.println(library.parse(arg));
        }
        System.out.println(library.parse("42") + library.refused);
        System.out.println(new Book("Emma", "Austen").equals(library.books.get("Emma")) + " "
            + (new Book("Emma", "Austen").hashCode() == library.books.get("Emma").hashCode()));
        try {
            library.find("Faust").giveBack();
        } catch (IllegalStateException | LendingException e) {
            System.out.println("caught " + e.getMessage());
        }
        library.books.get("Emma").giveBack();
        library.books.get("Emma").giveBack();
    }
}
