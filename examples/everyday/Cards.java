import java.util.ArrayList;
import java.util.Collections;
import java.util.List;

/** A pack of cards: enums with fields, a shuffle of our own, hands that are compared. */
public class Cards {
    enum Suit {
        CLUBS, DIAMONDS, HEARTS, SPADES;

        boolean isRed() {
            return this == DIAMONDS || this == HEARTS;
        }
    }

    enum Rank {
        TWO(2), THREE(3), FOUR(4), JACK(10) {
            @Override
            String sign() {
                return "J";
            }
        },
        ACE(11) {
            @Override
            String sign() {
                return "A";
            }
        };

        final int points;

        Rank(int points) {
            this.points = points;
        }

        String sign() {
            return "" + points;
        }
    }

    record Card(Suit suit, Rank rank) implements Comparable<Card> {
        @Override
        public int compareTo(Card o) {
            int byRank = rank.compareTo(o.rank);
            return byRank == 0 ? suit.ordinal() - o.suit.ordinal() : byRank;
        }

        @Override
        public String toString() {
            return rank.sign() + suit.name().charAt(0);
        }
    }

    private int seed;
    private final List<Card> pack = new ArrayList<>();

    Cards(int seed) {
        this.seed = seed;
        for (Suit suit : Suit.values()) {
            for (Rank rank : Rank.values()) {
                pack.add(new Card(suit, rank));
            }
        }
    }

    private int random(int n) {
        seed = (seed * 1103 + 12345) & 0xFFFF;
        return seed % n;
    }

    void shuffle() {
        for (int i = pack.size() - 1; i > 0; i--) {
            int j = random(i + 1);
            Card card = pack.get(i);
            pack.set(i, pack.get(j));
            pack.set(j, card);
        }
    }

    List<Card> deal(int n) {
        List<Card> hand = new ArrayList<>();
        while (n-- > 0) hand.add(pack.remove(pack.size() - 1));
        return hand;
    }

    static int value(List<Card> hand) {
        int sum = 0, aces = 0;
        for (Card card : hand) {
            sum += card.rank().points;
            if (card.rank() == Rank.ACE) aces++;
        }
        while (sum > 21 && aces-- > 0) sum -= 10;
        return sum;
    }

    public static void main(String[] args) {
        Cards cards = new Cards(42 + args.length);
        cards.shuffle();
        List<Card> one = cards.deal(4), other = cards.deal(4);
        System.out.println(one + " " + value(one));
        System.out.println(other + " " + value(other));
        Collections.sort(one);
        System.out.println(one + " " + Collections.max(other) + " " + Collections.min(other));
        int red = 0;
        for (Card card : cards.pack) {
            if (card.suit().isRed()) red++;
        }
        System.out.println(red + " red of " + cards.pack.size());
        System.out.println(one.contains(new Card(Suit.HEARTS, Rank.ACE)) + " " + one.indexOf(one.get(2)));
        Rank r = Rank.valueOf("JACK");
        switch (r) {
            case JACK:
                System.out.println("a jack");
            case ACE:
                System.out.println("or an ace");
                break;
            default:
                System.out.println("low");
        }
        System.out.println(Rank.valueOf("QUEEN"));
    }
}
