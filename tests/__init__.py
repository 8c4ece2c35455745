"""What tests the built program, in folders by what it tests."""
