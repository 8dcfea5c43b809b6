"""A user model of a site's own, with a field that each user has to have."""
from django.contrib.auth.models import AbstractBaseUser, BaseUserManager
from django.core.validators import RegexValidator
from django.db import models


class Users(BaseUserManager):
    def create_user(self, number, badge, password=None):
        user = self.model(number=number, badge=badge)
        user.set_password(password)
        user.save()
        return user


class Member(AbstractBaseUser):
    number = models.CharField(max_length=20, unique=True, validators=[RegexValidator("^[a-z]+$")])
    badge = models.CharField(max_length=9)
    is_active = models.BooleanField(default=True)
    USERNAME_FIELD, REQUIRED_FIELDS = "number", ["badge"]
    objects = Users()

    class Meta:
        app_label = "django_users"
