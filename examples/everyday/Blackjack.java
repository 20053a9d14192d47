import java.util.ArrayList;
import java.util.Collections;
import java.util.List;
import java.util.Random;

public class Blackjack {
    enum Suit { CLUBS, DIAMONDS, HEARTS, SPADES }

    enum Rank {
        TWO(2), THREE(3), FOUR(4), FIVE(5), SIX(6), SEVEN(7), EIGHT(8), NINE(9), TEN(10), JACK(10), QUEEN(10), KING(10), ACE(11);

        private final int points;

        Rank(int points) {
            this.points = points;
        }

        public int getPoints() {
            return points;
        }
    }

    record Card(Rank rank, Suit suit) {
        @Override
        public String toString() {
            return rank + " of " + suit;
        }
    }

    static class Deck {
        private final List<Card> cards = new ArrayList<>();

        Deck(Random random) {
            for (Suit suit : Suit.values()) {
                for (Rank rank : Rank.values()) {
                    cards.add(new Card(rank, suit));
                }
            }
            Collections.shuffle(cards, random);
        }

        Card draw() {
            return cards.remove(cards.size() - 1);
        }
    }

    static class Hand {
        private final List<Card> cards = new ArrayList<>();

        void add(Card card) {
            cards.add(card);
        }

        int value() {
            int value = 0;
            int aces = 0;
            for (Card card : cards) {
                value += card.rank().getPoints();
                if (card.rank() == Rank.ACE) {
                    aces++;
                }
            }
            while (value > 21 && aces-- > 0) {
                value -= 10;
            }
            return value;
        }

        boolean isBust() {
            return value() > 21;
        }

        @Override
        public String toString() {
            return cards + " (" + value() + ")";
        }
    }

    public static void main(String[] args) {
        Random random = new Random(42);
        int wins = 0, losses = 0, pushes = 0;
        for (int round = 1; round <= 10; round++) {
            Deck deck = new Deck(random);
            Hand player = new Hand();
            Hand dealer = new Hand();
            player.add(deck.draw());
            dealer.add(deck.draw());
            player.add(deck.draw());
            dealer.add(deck.draw());
            while (player.value() < 17) {
                player.add(deck.draw());
            }
            while (!player.isBust() && dealer.value() < 17) {
                dealer.add(deck.draw());
            }
            System.out.println("Round " + round + ": player " + player + ", dealer " + dealer);
            if (player.isBust() || !dealer.isBust() && dealer.value() > player.value()) {
                losses++;
            } else if (dealer.isBust() || player.value() > dealer.value()) {
                wins++;
            } else {
                pushes++;
            }
        }
        System.out.println("Wins: " + wins + ", losses: " + losses + ", pushes: " + pushes);
    }
}
